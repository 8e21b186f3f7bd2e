#include "port.h"

#include <sys/socket.h>
#include <unistd.h>

/* Amateur radio's own kinds of socket, where the system has them. */
static bool has_packets(int link)
{
    struct sockaddr_storage name;
    socklen_t n = sizeof name;

    if (getsockname(link, (struct sockaddr *)&name, &n))
        return false;
    switch (name.ss_family) {
#if defined(AF_AX25)
    case AF_AX25:
    case AF_NETROM:
    case AF_ROSE:
        return true;
#endif
    default:
        return false;
    }
}

/* What inetd and ax25d hand over is a socket. */
void stdio_open(struct port *port)
{
    int type;
    socklen_t n = sizeof type;

    port_start(port, STDIN_FILENO, STDOUT_FILENO);
    if (getsockopt(STDOUT_FILENO, SOL_SOCKET, SO_TYPE, &type, &n) == 0)
        port->kind = has_packets(STDOUT_FILENO) ? PACKETS : STREAM;
}
