#include "pages.h"

#include <string.h>

static const char *const reasons[] = {
    [FRINGEMOLE_PAGE_NO_RECORD] = "no record: two hexadecimal digits, a flag of 1 to 10 bytes and data, one space apart",
    [FRINGEMOLE_PAGE_BAD_VERSION] = "a version is two digits",
    [FRINGEMOLE_PAGE_BAD_CALL] = "a call has 1 to 6 bytes 0x21-0x7E without @ and .",
    [FRINGEMOLE_PAGE_BAD_HOME] = "a home mailbox has parts of 1 to 6 such bytes joined by dots, 38 bytes in all and 31 after the first dot",
    [FRINGEMOLE_PAGE_BAD_BID] = "a BID has 1 to 12 bytes 0x21-0xFF",
    [FRINGEMOLE_PAGE_BAD_STAMP] = "a time stamp has 1 to 10 digits",
    [FRINGEMOLE_PAGE_BAD_ORIGIN] = "an origin is a mailbox: parts of 1 to 6 bytes joined by dots, 38 bytes in all and 31 after the first dot",
    [FRINGEMOLE_PAGE_BAD_HOPS] = "hops have 1 to 10 digits",
    [FRINGEMOLE_PAGE_BAD_NAME] = "a name stands in quotes and holds none",
    [FRINGEMOLE_PAGE_BAD_ZIP] = "a zip isn't empty and holds no space",
    [FRINGEMOLE_PAGE_BAD_TOWN] = "a town stands in quotes, holds none and ends the line"
};

static const char *reason(uint8_t why)
{
    return why && why < sizeof reasons / sizeof reasons[0] ? reasons[why] : "another form";
}

static struct part field(struct part line, struct fringemole_page_field place)
{
    struct part part = { line.at + place.start, place.end - place.start };

    return part;
}

static struct home home_of(struct part line, const struct fringemole_page *found)
{
    struct home home = { field(line, found->call), field(line, found->home), field(line, found->bid), field(line, found->origin),
        field(line, found->name), field(line, found->zip), field(line, found->town), (long long)found->stamp, (long long)found->hops,
        false, { NULL, 0 }, false };

    return home;
}

/* ---- the old form, as LinFBB's own page on white pages shows it: On 930123 FD1CDC/U @ F6FBB.FMLR.FRA.EU zip 31240 Claude Saint Jean */

struct old_line {
    struct part date, call, mailbox, zip, name, town;
};

/* Whether a line has the old form at all. LinFBB also writes it without a letter behind the call. */
static bool read_old(struct part line, struct old_line *old)
{
    struct part at, word;

    if (!part_is(part_until(&line, ' '), "On"))
        return false;
    old->date = part_until(&line, ' ');
    old->call = part_until(&line, ' ');
    at = part_until(&line, ' ');
    old->mailbox = part_until(&line, ' ');
    word = part_until(&line, ' ');
    old->zip = part_until(&line, ' ');
    old->name = part_until(&line, ' ');
    old->town = line;
    return part_is(at, "@") && part_names(word, "zip");
}

/* NULL, or why what it says isn't taken: 004 takes neither guesses nor infos. */
static const char *cut_kind(struct part *call)
{
    struct part rest = *call, before = part_until(&rest, '/');

    if (before.n < call->n && !part_names(rest, "U"))
        return "of the old white pages only what a user said is taken (/U): no guess (/G) and no info (/I)";
    *call = before;
    return NULL;
}

static void add_word(struct bytes *line, struct part word, const char *after)
{
    bytes_add(line, word.at, word.n);
    bytes_add(line, after, strlen(after));
}

/* The M record that it becomes. What the old form doesn't have gets a sign that is right and is left out again; so does the stamp, which
 * may lie before 1970. */
static void make_record(const struct old_line *old, struct bytes *line)
{
    add_word(line, part_of("00 M"), " ");
    add_word(line, old->call, " ");
    add_word(line, old->mailbox, " ? 0 ? 0 \"");
    add_word(line, old->name, "\" ");
    add_word(line, old->zip, " \"");
    add_word(line, old->town, "\"");
}

/* Takes a line of the old form that is right for one that names a home mailbox; the record that it becomes lies in a store. */
static void take_old(struct page *page, struct bytes *store)
{
    struct fringemole_page_seconds date;
    struct fringemole_page found;
    struct old_line old;

    if (!read_old(page->text, &old))
        return;
    page->why = cut_kind(&old.call);
    if (page->why)
        return;
    date = fringemole_pages_seconds(old.date.at, old.date.n);
    make_record(&old, store);
    found = fringemole_pages_next(store->at, store->n, pages_survey(part_all(store)), 0);
    if (date.answer != FRINGEMOLE_PAGES_DONE) {
        page->why = "its date is none: six digits YYMMDD";
    } else if (found.kind != FRINGEMOLE_PAGE_MEMBER || found.next != store->n) {
        page->why = reason(found.why);
    } else {
        page->kind = PAGE_HOME;
        page->home = home_of(part_all(store), &found);
        page->home.bid = page->home.origin = part_of("");
        page->home.stamp = date.seconds;
        page->home.hops = HOPS_UNKNOWN;
        page->home.old = true;
    }
}

/* ---- a mail */

struct fringemole_pages pages_survey(struct part mail)
{
    return fringemole_pages_survey(mail.at, mail.n);
}

static struct page page_of(struct part mail, const struct fringemole_page *found, long long number)
{
    struct part text = { mail.at + found->start, found->end - found->start };
    struct page page;

    memset(&page, 0, sizeof page);
    page.number = number;
    page.text = text;
    page.version = found->version;
    switch (found->kind) {
    case FRINGEMOLE_PAGE_VERSION:
        page.kind = PAGE_VERSION;
        break;
    case FRINGEMOLE_PAGE_MEMBER:
        page.kind = PAGE_HOME;
        page.home = home_of(text, found);
        break;
    case FRINGEMOLE_PAGE_SKIPPED:
        page.kind = PAGE_SKIPPED;
        break;
    default:
        page.kind = PAGE_DROPPED;
        page.why = reason(found->why);
    }
    return page;
}

bool pages_each(struct part mail, page_function *function, void *context)
{
    struct fringemole_pages pages = pages_survey(mail);
    struct fringemole_page found = fringemole_pages_next(mail.at, mail.n, pages, 0);
    long long number;
    bool on = true;

    for (number = 1; on && found.kind != FRINGEMOLE_PAGE_END; number++) {
        struct bytes store = { NULL, 0, 0 };
        struct page page = page_of(mail, &found, number);
        if (page.kind == PAGE_DROPPED)
            take_old(&page, &store);
        on = function(context, &page);
        bytes_free(&store);
        found = fringemole_pages_next(mail.at, mail.n, pages, found.next);
    }
    return on;
}
