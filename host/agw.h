/* A link by radio that a TNC keeps, over AGW: it does AX.25, we have a stream of bytes with a clear end.
 *
 * Three things it doesn't do for us. It forgets what it still has to send when it is told to disconnect, so we first wait until the partner
 * has acknowledged all. It leaves the partner alone with the link when its connection with us ends, so we disconnect and wait for its word.
 * And it takes more than the radio can send, so we hold back what we say by what is outstanding. */
#ifndef AGW_H
#define AGW_H

#include "port.h"
#include "tnc.h"

#define AGW_PORTION 236 /* bytes of a frame: with PACLEN 236, what goes over the air whole */
#define AGW_WINDOW 8    /* frames outstanding: two bursts of four, so that the radio never waits for us */
#define AGW_MAX_DIGIPEATERS 7

struct agw {
    struct tnc tnc;
    bool serves; /* takes calls when there is no link */
    enum { IDLE, CALLING, STANDS, LEAVING, OVER } state;
    struct station partner;
    const char *end;    /* how the link ended, in words; NULL if it didn't, or by us */
    bool lost;          /* not by the partner's disconnect, nor by ours */
    bool anew;          /* the partner calls again; that frame is the next to hear */
    struct bytes heard; /* data that nobody has taken yet */
    bool spoke;         /* the last data were ours */
    /* Frames of data since the link stands: sent, acknowledged as far as we know, and sent when we last asked. */
    uint64_t sent, acknowledged, asked;
    bool asks; /* an answer is due */
    milliseconds asked_at;
    size_t sizes[AGW_WINDOW]; /* of the frames outstanding, by number */
    milliseconds leaving;     /* how long we wait for the disconnect */
};

/* False after it has said what is wrong; close it then, too. */
bool agw_open(struct agw *agw, const char *address, uint8_t radio, const struct station *us, milliseconds leaving);
/* Disconnects, if a link is left, and closes. */
void agw_close(struct agw *agw);
/* Calls, by so many digipeaters, within the time (0: any). False after it has said why there is no link. */
bool agw_call(struct agw *agw, const struct station *partner, const struct station *via, size_t count, milliseconds time);
/* Waits until somebody calls; false if the TNC is gone (agw->tnc.gone) or we are asked to stop. */
bool agw_answer(struct agw *agw);
/* The link as a port. The TNC stays open when it is hung up. */
void agw_start(struct agw *agw, struct port *port);

/* What port.h has of the same names. */
long agw_read(struct agw *agw, uint8_t *into, size_t room, milliseconds time);
long agw_write(struct agw *agw, struct part bytes, milliseconds time);
size_t agw_held(struct agw *agw);
long agw_settle(struct agw *agw, milliseconds time);
void agw_hang_up(struct agw *agw, milliseconds time);
void agw_drop(struct agw *agw);

#endif
