/* Mails of white pages (004): read by the proved archive alone (fringemole_pages.h). What the host adds is the old form of a line, whose
 * date that archive converts and whose fields it judges, on the M record that the line becomes. */
#ifndef PAGES_H
#define PAGES_H

#include "fringemole_pages.h"
#include "home.h"

enum page_kind { PAGE_VERSION, PAGE_HOME, PAGE_SKIPPED, PAGE_DROPPED };

struct page {
    long long number; /* of the line in its mail, from 1 */
    struct part text; /* the line as it stands */
    enum page_kind kind;
    unsigned version; /* of PAGE_VERSION: 10 is 1.0 */
    const char *why;  /* of PAGE_DROPPED: the rule that it breaks */
    struct home home; /* of PAGE_HOME; its source is empty */
};

/* The archive's view of a mail: of a newer version it is left unread, and has no lines. */
struct fringemole_pages pages_survey(struct part mail);
/* A function gets each line in order; its parts last until it returns. It answers whether to go on; so does this. */
typedef bool page_function(void *context, const struct page *page);
bool pages_each(struct part mail, page_function *function, void *context);

#endif
