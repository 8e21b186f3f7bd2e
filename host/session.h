/* One session: the library's three calls between a base and a link. */
#ifndef SESSION_H
#define SESSION_H

#include "base.h"
#include "link.h"
#include "say.h"

struct session_terms {
    uint8_t role;        /* FRINGEMOLE_CALLED or _CALLER */
    size_t room;         /* for bodies that come in */
    struct part partner; /* its callsign; empty if nobody told */
    uint8_t place;       /* of its column */
    struct part mailbox; /* ours, for the routing header of plain messages; empty if they get none */
    bool blank_offset;   /* blanks in the offset of a framed header count as zeros */
    bool panel;          /* the front panel is shown whenever it changes, and not only at the end */
};

/* Runs it to its end, on a base that is locked for a session. Gives DONE if it ended by FQ. */
enum exit_code session_run(struct base *base, struct link *link, const struct session_terms *terms);

#endif
