#include "port.h"
#include "say.h"
#include "stop.h"

#include <arpa/inet.h>
#include <errno.h>
#include <netdb.h>
#include <netinet/in.h>
#include <netinet/tcp.h>
#include <poll.h>
#include <stdio.h>
#include <string.h>
#include <sys/socket.h>
#include <unistd.h>

#define LOOPBACK "127.0.0.1"
#define LOOPBACK_NET 127 /* the first byte of each IPv4 address of this machine's own */
#define LAST_PORT 65535
#define WAITING_CALLS 64

/* HOST:PORT, [HOST]:PORT for a HOST with colons, :PORT or PORT. */
static bool split(const char *address, char *host, size_t room, const char **service)
{
    const char *colon = strrchr(address, ':'), *from = address;
    size_t n = colon ? (size_t)(colon - address) : 0;

    *service = colon ? colon + 1 : address;
    if (n >= 2 && address[0] == '[' && address[n - 1] == ']') {
        from++;
        n -= 2;
    }
    if (!**service || n >= room)
        return false;
    memcpy(host, from, n);
    host[n] = 0;
    if (!n)
        strcpy(host, LOOPBACK);
    return true;
}

/* A number that is too large would be taken for another. */
static bool is_service(const char *service)
{
    long number;

    if (strspn(service, "0123456789") != strlen(service))
        return true; /* a name */
    return part_number(part_of(service), &number) && number <= LAST_PORT;
}

static struct addrinfo *look_up(const char *address, int flags)
{
    struct addrinfo hints, *found = NULL;
    char host[256];
    const char *service;
    int fault;

    memset(&hints, 0, sizeof hints);
    hints.ai_socktype = SOCK_STREAM;
    hints.ai_flags = flags;
    if (!split(address, host, sizeof host, &service)) {
        say("%s: not an address HOST:PORT", address);
        return NULL;
    }
    if (!is_service(service)) {
        say("%s: a port number is at most %d", address, LAST_PORT);
        return NULL;
    }
    fault = getaddrinfo(host, service, &hints, &found);
    if (fault)
        say("%s: %s", address, gai_strerror(fault));
    return fault ? NULL : found;
}

static int socket_for(const struct addrinfo *one)
{
    return socket(one->ai_family, one->ai_socktype, one->ai_protocol);
}

/* A short line goes out at once, whatever is on its way. */
static void use_socket(struct port *port, int s)
{
    int yes = 1;

    if (s >= 0)
        setsockopt(s, IPPROTO_TCP, TCP_NODELAY, &yes, sizeof yes);
    port_start(port, s, s);
    port->kind = STREAM;
}

bool tcp_call(struct port *port, const char *address)
{
    struct addrinfo *found = look_up(address, 0), *one;
    int s = -1;

    for (one = found; one && s < 0; one = one->ai_next) {
        s = socket_for(one);
        if (s >= 0 && connect(s, one->ai_addr, one->ai_addrlen)) {
            int fault = errno;
            close(s);
            s = -1;
            errno = fault;
        }
    }
    if (found && s < 0)
        say("%s: %s", address, strerror(errno));
    if (found)
        freeaddrinfo(found);
    use_socket(port, s);
    return s >= 0;
}

/* With port 0 the system chooses one, so say which. */
static void say_where(int s)
{
    struct sockaddr_storage where;
    socklen_t n = sizeof where;
    char host[64], service[16];

    if (getsockname(s, (struct sockaddr *)&where, &n) == 0
        && getnameinfo((struct sockaddr *)&where, n, host, sizeof host, service, sizeof service, NI_NUMERICHOST | NI_NUMERICSERV) == 0)
        say("listening on %s%s%s:%s", strchr(host, ':') ? "[" : "", host, strchr(host, ':') ? "]" : "", service);
}

/* Whether nobody but this machine can call there. */
static bool is_inside(const struct sockaddr *where)
{
    if (where->sa_family == AF_INET)
        return ntohl(((const struct sockaddr_in *)(const void *)where)->sin_addr.s_addr) >> 24 == LOOPBACK_NET;
    return where->sa_family == AF_INET6 && IN6_IS_ADDR_LOOPBACK(&((const struct sockaddr_in6 *)(const void *)where)->sin6_addr);
}

bool tcp_is_outside(int link)
{
    struct sockaddr_storage other;
    socklen_t n = sizeof other;

    if (getpeername(link, (struct sockaddr *)&other, &n))
        return false;
    return (other.ss_family == AF_INET || other.ss_family == AF_INET6) && !is_inside((const struct sockaddr *)&other);
}

int tcp_listen(const char *address, bool *inside)
{
    struct addrinfo *found = look_up(address, AI_PASSIVE);
    int s, yes = 1;

    if (!found)
        return -1;
    *inside = is_inside(found->ai_addr);
    s = socket_for(found);
    if (s >= 0)
        setsockopt(s, SOL_SOCKET, SO_REUSEADDR, &yes, sizeof yes);
    if (s < 0 || bind(s, found->ai_addr, found->ai_addrlen) || listen(s, WAITING_CALLS)) {
        say("%s: %s", address, strerror(errno));
        if (s >= 0)
            close(s);
        s = -1;
    } else {
        say_where(s);
    }
    freeaddrinfo(found);
    return s;
}

bool tcp_accept(struct port *port, int listener)
{
    int s;

    do {
        struct pollfd wait[2] = { { listener, POLLIN, 0 }, { stop_descriptor(), POLLIN, 0 } };
        poll(wait, 2, -1);
        s = stop_asked() ? -1 : accept(listener, NULL, NULL);
    } while (s < 0 && !stop_asked() && (errno == EINTR || errno == ECONNABORTED));
    if (s < 0 && !stop_asked())
        say("accept: %s", strerror(errno));
    use_socket(port, s);
    return s >= 0;
}
