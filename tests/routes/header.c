/* include/fringemole_route.h from C and from C++, at its limits: what is written is read back, a body without a header has no origin. */
#include "fringemole_route.h"
#include <string.h>

int main(void)
{
    static const char longest[] = "ABCDEF.ABCDEF.ABCDEF.ABCDEF.ABCDEF.ABC", body[] = "hello\r";
    uint8_t out[FRINGEMOLE_ROUTE_MAX_LINE + sizeof body - 1];
    const uint8_t *mailbox = (const uint8_t *)longest, *text = (const uint8_t *)body;
    size_t n = sizeof longest - 1, len = sizeof body - 1;
    struct fringemole_added added;
    struct fringemole_hop hop;
    struct fringemole_origin origin;

    if (n != FRINGEMOLE_ROUTE_MAX_MAILBOX)
        return 1;
    added = fringemole_route_add(out, sizeof out, FRINGEMOLE_ROUTE_LAST_YEAR, 12, 31, 23, 59, FRINGEMOLE_ROUTE_MAX_NUMBER, mailbox, n, text, len);
    if (added.answer != FRINGEMOLE_ROUTE_WRITTEN || added.count != sizeof out)
        return 2;
    hop = fringemole_route_next(out, added.count, 0);
    if (!hop.found || hop.year != FRINGEMOLE_ROUTE_LAST_YEAR || hop.month != 12 || hop.day != 31 || hop.hour != 23 || hop.minute != 59 || !hop.gmt
        || hop.number != FRINGEMOLE_ROUTE_MAX_NUMBER || hop.end - hop.start != n || memcmp(out + hop.start, longest, n) != 0 || hop.next != FRINGEMOLE_ROUTE_MAX_LINE)
        return 3;
    if (fringemole_route_next(out, added.count, hop.next).found)
        return 4;
    origin = fringemole_route_origin(out, added.count);
    if (!origin.found || origin.start != hop.start || origin.end != hop.end || fringemole_route_origin(text, len).found)
        return 5;
    added = fringemole_route_add(out, sizeof out - 1, FRINGEMOLE_ROUTE_LAST_YEAR, 12, 31, 23, 59, FRINGEMOLE_ROUTE_MAX_NUMBER, mailbox, n, text, len);
    if (added.answer != FRINGEMOLE_ROUTE_NO_ROOM || added.count != 0)
        return 6;
    added = fringemole_route_add(NULL, 0, FRINGEMOLE_ROUTE_FIRST_YEAR - 1, 12, 31, 23, 59, 0, mailbox, n, text, len);
    if (added.answer != FRINGEMOLE_ROUTE_BAD_FIELD || added.count != 0)
        return 7;
    return 0;
}
