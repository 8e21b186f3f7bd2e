#include "reason.h"
#include "say.h"
#include "text.h"

#include <stdlib.h>
#include <string.h>

#define MARK "***"
#define MARK_BYTES (sizeof MARK - 1)

bool reason_is(struct part line)
{
    return line.n >= MARK_BYTES && memcmp(line.at, MARK, MARK_BYTES) == 0;
}

static struct part said(const struct reason *reason)
{
    return (struct part){ reason->line, reason->n };
}

static bool may_go_on(const struct reason *reason)
{
    size_t n = reason->n < MARK_BYTES ? reason->n : MARK_BYTES;

    return n && memcmp(reason->line, MARK, n) == 0 && reason->n < sizeof reason->line && reason->line[reason->n - 1] != '\r';
}

static void put(struct reason *reason, struct part bytes)
{
    reason->n = bytes.n < sizeof reason->line ? bytes.n : sizeof reason->line;
    memcpy(reason->line, bytes.at, reason->n);
}

/* In a transfer, or while we speak, a line begins with the refused byte, whatever came before it. */
static void begin(struct reason *reason, const struct heard *heard, unsigned refusal)
{
    struct part line = heard_line(heard);

    if (line.n && (refusal == FRINGEMOLE_BAD_TRANSFER || refusal == FRINGEMOLE_BYTES_WAIT))
        line = (struct part){ line.at + line.n - 1, 1 };
    put(reason, line);
}

void reason_hear(struct reason *reason, struct link *link, const struct heard *heard, unsigned refusal, struct part come)
{
    begin(reason, heard, refusal);
    while (may_go_on(reason)) {
        uint8_t *next = reason->line + reason->n;
        if (come.n) {
            *next = *come.at++;
            come.n--;
        } else if (link_read(link, next, 1, true) != 1) {
            break;
        }
        reason->n++;
    }
    if (!reason_is(said(reason)))
        reason->n = 0;
    if (reason->n)
        link->port.told_why = false; /* the partner hangs up, too, and reads no more */
}

void reason_last(struct reason *reason, const struct heard *heard)
{
    put(reason, heard_line(heard));
    if (!reason_is(said(reason)))
        reason->n = 0;
}

void reason_tell(const struct reason *reason)
{
    struct part line = said(reason);
    char *text;

    if (!line.n)
        return;
    line.n -= line.at[line.n - 1] == '\r';
    text = text_copy(line);
    say("the partner says why: %s", text);
    free(text);
}

void reason_say(struct link *link, const struct fringemole_memory *lent)
{
    uint8_t out[HEARD_MOST];
    size_t n;

    do {
        n = fringemole_give_in(lent, out, sizeof out, 0).count;
        link->port.told_why = link->port.told_why || n;
    } while (n && link_write(link, (struct part){ out, n }));
}
