#include "route.h"
#include "fault.h"

#include <time.h>

#define YEAR_ZERO 1900 /* of struct tm */

/* The time in GMT, in the writer's numbers. What has no place in them becomes one that it refuses. */
static struct fringemole_added add(struct bytes *store, const struct tm *time, uint32_t number, struct part mailbox, struct part body)
{
    bool fits = time->tm_year >= 0 && time->tm_year <= UINT16_MAX - YEAR_ZERO;
    uint16_t year = fits ? (uint16_t)(time->tm_year + YEAR_ZERO) : 0;
    uint8_t *out = bytes_zeros(store, FRINGEMOLE_ROUTE_MAX_TEXT);
    struct fringemole_added added = fringemole_route_add(out, FRINGEMOLE_ROUTE_MAX_TEXT, year, (uint8_t)(time->tm_mon + 1),
        (uint8_t)time->tm_mday, (uint8_t)time->tm_hour, (uint8_t)time->tm_min, number, mailbox.at, mailbox.n, body.at, body.n);

    store->n = added.count;
    return added;
}

/* The writer itself is asked, at a time and with a number that are right. */
bool route_can_name(struct part mailbox)
{
    struct bytes store = { NULL, 0, 0 };
    time_t start = 0;
    struct tm parts;
    bool right = gmtime_r(&start, &parts) && add(&store, &parts, 1, mailbox, part_of("")).answer == FRINGEMOLE_ROUTE_WRITTEN;

    bytes_free(&store);
    return right;
}

const char *route_add(struct message *message, struct part mailbox, struct bytes *store)
{
    time_t came = (time_t)message->came;
    uint32_t number = message->number >= 0 && message->number < UINT32_MAX ? (uint32_t)message->number : UINT32_MAX;
    struct message routed = *message;
    struct tm parts;
    uint8_t answer;

    if (!came || !gmtime_r(&came, &parts))
        return "nobody noted when it came";
    answer = add(store, &parts, number, mailbox, message->body).answer;
    if (answer == FRINGEMOLE_ROUTE_NO_ROOM)
        return "it would pass 65,535 bytes";
    if (answer != FRINGEMOLE_ROUTE_WRITTEN)
        return "its number or the time when it came has no place in a header";
    routed.body = part_all(store);
    routed.size += (uint32_t)(store->n - message->body.n);
    if (message_fault(&routed))
        return message_fault(&routed);
    *message = routed;
    return NULL;
}
