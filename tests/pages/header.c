/* include/fringemole_pages.h from C and from C++, at its limits: a member at its longest, a mail left unread, the first and the last date. */
#include "fringemole_pages.h"
#include <string.h>

#define MAIL "R:990407/0944z @:OE3DZW\rD7 V 10\r5C M OE3DZW OE3DZW.#OE3.AUT.EU 749OE3DZW004 9999999999 OE3DZW 1 \"Dietmar\" ? \"\"\r"

static int is(const uint8_t *mail, struct fringemole_page page, struct fringemole_page_field field, const char *text)
{
    return field.end - field.start == strlen(text) && memcmp(mail + page.start + field.start, text, strlen(text)) == 0;
}

static int records(void)
{
    static const char text[] = MAIL;
    const uint8_t *mail = (const uint8_t *)text;
    size_t n = sizeof text - 1;
    struct fringemole_pages pages = fringemole_pages_survey(mail, n);
    struct fringemole_page page = fringemole_pages_next(mail, n, pages, 0);

    if (pages.unread || pages.records != 2 || pages.dropped != 1 || pages.version != FRINGEMOLE_PAGES_VERSION)
        return 1;
    if (page.kind != FRINGEMOLE_PAGE_DROPPED || page.why != FRINGEMOLE_PAGE_NO_RECORD || page.start != 0)
        return 2;
    page = fringemole_pages_next(mail, n, pages, page.next);
    if (page.kind != FRINGEMOLE_PAGE_VERSION || page.version != FRINGEMOLE_PAGES_VERSION || memcmp(mail + page.start, "D7", 2) != 0)
        return 3;
    page = fringemole_pages_next(mail, n, pages, page.next);
    if (page.kind != FRINGEMOLE_PAGE_MEMBER || page.stamp != FRINGEMOLE_PAGES_MAX_NUMBER || page.hops != 1 || page.next != n)
        return 4;
    if (!is(mail, page, page.call, "OE3DZW") || !is(mail, page, page.home, "OE3DZW.#OE3.AUT.EU") || !is(mail, page, page.bid, "749OE3DZW004")
        || !is(mail, page, page.origin, "OE3DZW") || !is(mail, page, page.name, "Dietmar") || !is(mail, page, page.zip, "?") || !is(mail, page, page.town, ""))
        return 5;
    return fringemole_pages_next(mail, n, pages, page.next).kind == FRINGEMOLE_PAGE_END ? 0 : 6;
}

static int unread(void)
{
    static const char text[] = MAIL "00 V 11";
    const uint8_t *mail = (const uint8_t *)text;
    size_t n = sizeof text - 1, at;
    struct fringemole_pages pages = fringemole_pages_survey(mail, n);

    if (!pages.unread || pages.records != 0 || pages.dropped != 0 || pages.version != FRINGEMOLE_PAGES_VERSION + 1)
        return 11;
    for (at = 0; at <= n; at++) {
        if (fringemole_pages_next(mail, n, pages, at).kind != FRINGEMOLE_PAGE_END)
            return 12;
    }
    pages = fringemole_pages_survey(NULL, 0);
    return !pages.unread && !pages.version && fringemole_pages_next(NULL, 0, pages, 0).kind == FRINGEMOLE_PAGE_END ? 0 : 13;
}

static int dates(void)
{
    struct fringemole_page_seconds seconds = fringemole_pages_seconds((const uint8_t *)"700101", 6);
    struct fringemole_page_date date;

    if (seconds.answer != FRINGEMOLE_PAGES_DONE || seconds.seconds != FRINGEMOLE_PAGES_FIRST_SECONDS)
        return 21;
    seconds = fringemole_pages_seconds((const uint8_t *)"691231", 6);
    if (seconds.answer != FRINGEMOLE_PAGES_DONE || seconds.seconds != FRINGEMOLE_PAGES_LAST_SECONDS)
        return 22;
    if (fringemole_pages_seconds(NULL, 0).answer != FRINGEMOLE_PAGES_BAD_DATE)
        return 23;
    date = fringemole_pages_date(FRINGEMOLE_PAGES_END_SECONDS - 1);
    if (date.answer != FRINGEMOLE_PAGES_DONE || date.year != 2069 || date.month != 12 || date.day != 31 || memcmp(date.text, "691231", 6) != 0)
        return 24;
    if (fringemole_pages_date(FRINGEMOLE_PAGES_END_SECONDS).answer != FRINGEMOLE_PAGES_OUT_OF_RANGE)
        return 25;
    return fringemole_pages_date(-1).answer == FRINGEMOLE_PAGES_OUT_OF_RANGE ? 0 : 26;
}

int main(void)
{
    int wrong = records();

    if (!wrong)
        wrong = unread();
    return wrong ? wrong : dates();
}
