/* How many of our bytes the system still holds. POSIX has no such question; where the system doesn't know it, nothing counts as held. */
#include "port.h"

#include <sys/ioctl.h>
#include <sys/socket.h>
#include <unistd.h>

#if defined(__linux__)
/* Amateur radio's sockets say with TIOCOUTQ how much room is left, all others how much is held. */
static size_t held_in_packets(int link)
{
    int room = 0, all = 0;
    socklen_t n = sizeof all;

    if (ioctl(link, TIOCOUTQ, &room) || getsockopt(link, SOL_SOCKET, SO_SNDBUF, &all, &n))
        return 0;
    return all > room ? (size_t)(all - room) : 0;
}
#else
static size_t held_in_packets(int link)
{
    (void)link;
    return 0;
}
#endif

static size_t asked(int descriptor, unsigned long question)
{
    int count = 0;

    return ioctl(descriptor, question, &count) || count < 0 ? 0 : (size_t)count;
}

size_t queue_held(const struct port *port)
{
    if (port->kind == PACKETS)
        return held_in_packets(port->out);
#if defined(FIONREAD)
    if (port->kind == PIPE && !isatty(port->out))
        return asked(port->out, FIONREAD); /* what the reader of a pipe hasn't taken */
#endif
#if defined(TIOCOUTQ)
    return asked(port->out, TIOCOUTQ); /* on Linux TCP answers it too */
#else
    return 0;
#endif
}
