/* How long a partner may keep us: the limits of one session, and what counts as progress.
 *
 * Silence runs from the last byte that came or left. Progress is what the library makes of the partner's bytes: it awaits something else
 * (a SID, a prompt, a turn, an FS line, a transfer), keeps a message, or has something for us to say; and of transfers, either way, so many
 * bytes as the least rate gives within the limit. Lines that begin with ';', text, and bytes that make no line are no progress. */
#ifndef PATIENCE_H
#define PATIENCE_H

#include "options.h"
#include "port.h"

struct patience {
    /* Limits; 0: none. */
    milliseconds silence, sid, progress, session;
    milliseconds linger; /* for a last word */
    uint64_t step; /* bytes of transfers that count as progress */
    /* What was seen. */
    milliseconds began, moved;
    bool greeted;     /* the partner's SID has come */
    bool all_left;    /* of what we said */
    uint8_t awaited, kept;
    uint64_t body, left; /* bytes of the message that comes in and of what we sent, at the last progress */
};

void patience_start(struct patience *patience, const struct options *options);
/* Looks at session memory, after a give. `spoke`: we have begun to say something. */
void patience_watch(struct patience *patience, const uint8_t *session, bool spoke);
/* The session is given up: what is still said or heard has no more time than a hang-up. */
void patience_part(struct patience *patience);
/* Looks at what has left. */
void patience_look(struct patience *patience, const struct port *port);
/* Which limit is reached, in words; NULL if none is. */
const char *patience_over(const struct patience *patience, const struct port *port);
/* Until the next look, at least 0. */
milliseconds patience_left(const struct patience *patience, const struct port *port);

#endif
