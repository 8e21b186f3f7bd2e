/* Why a session is given up, in a line that begins with *** (document 002): ours, which the library has after a refusal, or the partner's. */
#ifndef REASON_H
#define REASON_H

#include "fringemole.h"
#include "heard.h"
#include "link.h"

/* What the partner said, as far as it came, with its CR; empty if it said no such line. */
struct reason {
    uint8_t line[HEARD_MOST];
    size_t n;
};

/* Whether a line tells why. */
bool reason_is(struct part line);
/* What was refused may be the beginning of such a line: then the rest of it is taken, first from what has come already. */
void reason_hear(struct reason *reason, struct link *link, const struct heard *heard, unsigned refusal, struct part come);
/* The line that came last, where lines are awaited. */
void reason_last(struct reason *reason, const struct heard *heard);
/* To the operator. */
void reason_tell(const struct reason *reason);

/* All that the library still has to say goes to the link. If the link takes it no more, that is no further fault. */
void reason_say(struct link *link, const struct fringemole_memory *lent);

#endif
