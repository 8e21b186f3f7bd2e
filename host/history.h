/* A row for each session, so that what happened can be told later. A row without an end is that of a session that runs, or was killed. */
#ifndef HISTORY_H
#define HISTORY_H

#include "base.h"
#include "panel.h"

struct history {
    long long number, began, ended; /* ended: 0 if it hasn't */
    struct part partner;            /* its callsign; empty if nobody told */
    uint8_t role;                   /* FRINGEMOLE_CALLED or _CALLER */
    struct part ending;             /* in a word or two: FQ, refused, silent .. */
    unsigned refusal;               /* its number, or 0 */
    struct part line;               /* what the partner sent of the line that was refused, or its reason, a line that begins with *** */
    int level;                      /* in force; below 0: no SID came */
    struct panel panel;             /* at its end */
    bool has_panel;                 /* of an older session the base has forwarded, declined and deferred alone */
    unsigned long kept, sent, received;
};

/* Gives the new row's number. */
bool history_begin(struct base *base, struct part partner, uint8_t role, long long *number);
/* All from `ended` on but partner and role; the time is now. */
bool history_end(struct base *base, const struct history *session);

/* The level in force in the last session with this partner that had one; 1 if there was none. */
bool history_level(struct base *base, struct part partner, uint8_t *level);

/* The newest first; parts last until the function returns. It answers whether to go on. */
typedef bool history_function(void *context, const struct history *session);
bool history_each(struct base *base, history_function *function, void *context);

#endif
