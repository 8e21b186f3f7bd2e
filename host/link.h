/* The link of one session: a port, with what the operator asked to stand between it and the library. */
#ifndef LINK_H
#define LINK_H

#include "patience.h"
#include "port.h"
#include "progress.h"
#include "telnet.h"
#include "transcript.h"

#define LINK_PORTION 4096 /* read at once: more than any packet has, because what isn't read of a packet is lost */

struct link {
    struct port port;
    struct patience patience;
    struct transcript transcript;
    struct progress progress;
    struct telnet telnet;
    bool doubles;            /* FF bytes, as telnet has them */
    bool secret;             /* what passes now stands in no transcript */
    int64_t left_until_drop; /* bytes either way, then it drops; below 0: never */
    uint64_t sent, received;
    /* Bytes that came, as they came, from early_at on nobody has taken them yet. */
    uint8_t early[LINK_PORTION];
    size_t early_at, early_end;
    bool after_cr;     /* an LF that comes next belongs to a line that is over */
    bool keeps;        /* what is taken stays, for link_rewind; the state before it: */
    struct telnet kept_telnet;
    bool kept_after_cr;
    struct bytes told; /* bytes that we shall say and the partner has already */
    const char *over;  /* which limit ended the link, in words; NULL if none did */
};

/* An open port under the operator's limits; it has no transcript yet. */
void link_start(struct link *link, const struct port *port, const struct options *options);

/* Bytes of the partner. `wait` false: only what is there. Gives what port_read gives; PORT_SILENT with `wait`: a limit is reached. */
long link_read(struct link *link, uint8_t *into, size_t room, bool wait);
/* Writes all of it, unless the port is gone or a limit is reached. */
bool link_write(struct link *link, struct part bytes);
/* Waits until the partner's station has all of it, where the port can tell; false if the link is lost before, or a limit is reached. */
bool link_settle(struct link *link);
/* The byte that was read last, alone, comes again. */
void link_unread(struct link *link);
/* From here on what the partner says is kept, as far as there is room, and what we say. */
void link_keep(struct link *link);
/* Back to where link_keep was called: the same bytes come again, and what we said then isn't said a second time. Time counts anew. */
void link_rewind(struct link *link, const struct options *options);
void link_end(struct link *link);

#endif
