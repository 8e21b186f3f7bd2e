/* A port: bytes out, bytes in, and the end of the link. It knows nothing of what they mean. */
#ifndef PORT_H
#define PORT_H

#include "bytes.h"
#include "moment.h"

#include <termios.h>

struct agw;

struct port {
    int in, out; /* one descriptor twice, but for standard input and output */
    enum { PIPE, STREAM, PACKETS, LINE, TNC } kind; /* pipes and files; TCP; packets as AX.25 has them; a serial line; a TNC's link (agw.h) */
    struct agw *agw;       /* a TNC's */
    struct termios before; /* a line's mode when it was opened */
    bool carrier;          /* the line has one, and its loss ends the link */
    size_t portion;        /* the most bytes that one write may have */
    bool told_why;         /* our last word says why we hang up, and the partner should have read it by then */
    /* What has left: bytes that the system took less those that it still holds. */
    uint64_t taken, left;
    size_t held;
    milliseconds heard_at, left_at; /* when a byte last came, when one last left */
};

/* What port_read and port_write give beside a count of bytes. */
#define PORT_SILENT 0 /* nothing came, nothing was taken in time */
#define PORT_GONE (-1)

/* Each says what is wrong and answers false then. HOST may be left out: it is 127.0.0.1. */
bool tcp_call(struct port *port, const char *address);
/* Gives the descriptor to accept on, or -1; says where it listens. `inside` tells whether only this machine can call there. */
int tcp_listen(const char *address, bool *inside);
bool tcp_accept(struct port *port, int listener);
/* Whether the other end of this link is another machine, by TCP. */
bool tcp_is_outside(int link);
bool serial_open(struct port *port, const char *device, const char *bits, bool flow);
void stdio_open(struct port *port);

void port_start(struct port *port, int in, int out);
/* Bytes that came, as many as there are within the time. */
long port_read(struct port *port, uint8_t *into, size_t room, milliseconds time);
/* Writes what the system takes of it within the time. */
long port_write(struct port *port, struct part bytes, milliseconds time);
/* Looks what has left meanwhile; false if the line has lost its carrier. */
bool port_look(struct port *port);
/* Waits so long until the partner's station has all that was written, where the port can tell that: PORT_SILENT if it hasn't yet, PORT_GONE if
 * the link was lost before. */
long port_settle(struct port *port, milliseconds time);
/* How the link ended, in words, where the port can tell more than that it did; else NULL. */
const char *port_end(const struct port *port);
/* Ends the link; what was written still goes out, if it does within the time. */
void port_hang_up(struct port *port, milliseconds time);
/* Ends the link as a failing radio does. */
void port_drop(struct port *port);

/* What the system still holds of the bytes that it took. */
size_t queue_held(const struct port *port);
bool serial_has_carrier(int line);
/* Drops DTR for a moment and gives the line back as it was. */
void serial_close(struct port *port);

#endif
