#include "port.h"
#include "agw.h"
#include "stop.h"

#include <errno.h>
#include <poll.h>
#include <string.h>
#include <sys/socket.h>
#include <unistd.h>

#define PORTION 4096          /* of a write: what a pipe that is ready takes without waiting */
#define LAST (2 * SECOND)     /* of silence, once our last bytes have left: the partner doesn't close */
#define TICK (SECOND / 4)     /* between two looks at what has left */

void port_start(struct port *port, int in, int out)
{
    memset(port, 0, sizeof *port);
    port->in = in;
    port->out = out;
    port->portion = PORTION;
    port->heard_at = port->left_at = moment_now();
}

/* Waits until the descriptor is ready; false if it isn't in time, or we are asked to stop. */
static bool ready(int descriptor, short what, milliseconds time)
{
    struct pollfd wait[2] = { { descriptor, what, 0 }, { stop_descriptor(), POLLIN, 0 } };
    milliseconds end = moment_now() + time;

    for (;;) {
        milliseconds left = end - moment_now();
        int found = poll(wait, 2, left > 0 ? (int)left : 0);
        if (stop_asked())
            return false;
        if (found > 0 || (found < 0 && errno != EINTR))
            return true; /* the read or write that follows meets the fault */
        if (left <= 0)
            return false;
    }
}

static bool try_again(void)
{
    return errno == EINTR || errno == EAGAIN || errno == EWOULDBLOCK;
}

long port_read(struct port *port, uint8_t *into, size_t room, milliseconds time)
{
    ssize_t n;

    if (port->kind == TNC) {
        n = agw_read(port->agw, into, room, time);
        if (n > 0)
            port->heard_at = moment_now();
        return (long)n;
    }
    if (!ready(port->in, POLLIN, time))
        return PORT_SILENT;
    n = read(port->in, into, room);
    if (n > 0)
        port->heard_at = moment_now();
    return n > 0 ? (long)n : n < 0 && try_again() ? PORT_SILENT : PORT_GONE;
}

/* On a socket that isn't ours alone (inetd's) a write must not wait, whatever poll has said. */
static ssize_t put(const struct port *port, const uint8_t *at, size_t n)
{
#if defined(MSG_DONTWAIT)
    if (port->kind == STREAM || port->kind == PACKETS)
        return send(port->out, at, n, MSG_DONTWAIT | MSG_NOSIGNAL);
#endif
    return write(port->out, at, n);
}

long port_write(struct port *port, struct part bytes, milliseconds time)
{
    size_t most = bytes.n < port->portion ? bytes.n : port->portion;
    ssize_t n;

    if (port->kind == TNC) {
        n = agw_write(port->agw, bytes, time);
        port->taken += n > 0 ? (uint64_t)n : 0;
        return (long)n;
    }
    if (!ready(port->out, POLLOUT, time))
        return PORT_SILENT;
    n = put(port, bytes.at, most);
    if (n < 0 && errno == EMSGSIZE && most > 1) {
        port->portion = most / 2; /* a packet has its own limit */
        return PORT_SILENT;
    }
    if (n > 0)
        port->taken += (uint64_t)n;
    return n > 0 ? (long)n : n == 0 || try_again() ? PORT_SILENT : PORT_GONE;
}

bool port_look(struct port *port)
{
    uint64_t left;

    port->held = port->kind == TNC ? agw_held(port->agw) : queue_held(port);
    left = port->taken > port->held ? port->taken - port->held : 0;
    if (left > port->left) {
        port->left = left;
        port->left_at = moment_now();
    }
    return !port->carrier || serial_has_carrier(port->in);
}

long port_settle(struct port *port, milliseconds time)
{
    return port->kind == TNC ? agw_settle(port->agw, time) : 1;
}

const char *port_end(const struct port *port)
{
    return port->kind == TNC ? port->agw->end : NULL;
}

/* A socket that is closed with unread bytes in it drops what is still on its way, AX.25 drops it in any case: so first see it leave, and
 * wait until the partner has closed too. */
static void see_off(struct port *port, milliseconds end)
{
    uint8_t unread[PORTION];
    long n = PORT_SILENT;

    port->heard_at = moment_now();
    while (n != PORT_GONE && moment_now() < end && port_look(port) && !stop_asked()) {
        milliseconds quiet = moment_now() - (port->heard_at > port->left_at ? port->heard_at : port->left_at);
        if (port->held == 0 && (port->kind == LINE || quiet >= LAST))
            break;
        n = port_read(port, unread, sizeof unread, TICK);
    }
}

void port_hang_up(struct port *port, milliseconds time)
{
    milliseconds end;

    if (port->kind == TNC) {
        agw_hang_up(port->agw, time);
        return;
    }
    end = moment_now() + time;
    /* LinFBB drops a line that it finds together with the end of the link. */
    if (port->kind == STREAM && port->told_why)
        see_off(port, end);
    if (port->kind == STREAM)
        shutdown(port->out, SHUT_WR);
    if (port->kind != PIPE)
        see_off(port, end);
    if (port->kind == LINE && port->held == 0)
        tcdrain(port->out); /* what the device itself still has */
    port_drop(port);
}

void port_drop(struct port *port)
{
    if (port->kind == TNC) {
        agw_drop(port->agw);
        return;
    }
    if (port->kind == LINE)
        serial_close(port);
    close(port->in);
    if (port->out != port->in)
        close(port->out);
}
