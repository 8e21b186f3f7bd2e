/* Loaded before the C library (LD_PRELOAD): makes a pseudo-terminal or a socket look like what a radio hangs on.
 *
 *   LINE_RATE=N        what was written leaves at N bytes a second (TIOCOUTQ), though the other end has it at once
 *   LINE_AX25=N        standard output is an AX.25 socket: packets of at most N bytes, and TIOCOUTQ tells the room that is left
 *   LINE_CARRIER=FILE  the line has carrier while FILE is there (TIOCMGET)
 *   LINE_UPTIME=N      the machine has been up for N seconds when the process starts, by its steady clock */
#define _GNU_SOURCE
#include <dlfcn.h>
#include <errno.h>
#include <stdarg.h>
#include <stdlib.h>
#include <sys/ioctl.h>
#include <sys/socket.h>
#include <time.h>
#include <unistd.h>

#define ROOM 65536 /* of the socket */

static double held, when;

static double number(const char *name)
{
    const char *text = getenv(name);

    return text ? atof(text) : 0;
}

static void *next(const char *name)
{
    return dlsym(RTLD_NEXT, name);
}

int clock_gettime(clockid_t which, struct timespec *time)
{
    static time_t first;
    int (*real)(clockid_t, struct timespec *) = (int (*)(clockid_t, struct timespec *))next("clock_gettime");
    int done = real(which, time);

    if (done == 0 && which == CLOCK_MONOTONIC && number("LINE_UPTIME") > 0) {
        first = first ? first : time->tv_sec;
        time->tv_sec += (time_t)number("LINE_UPTIME") - first;
    }
    return done;
}

static double now(void)
{
    struct timespec time;

    clock_gettime(CLOCK_MONOTONIC, &time);
    return (double)time.tv_sec + (double)time.tv_nsec / 1e9;
}

/* What hasn't left, once `more` is added. */
static int queue(double more)
{
    double gone = (now() - when) * number("LINE_RATE");

    held = (held > gone ? held - gone : 0) + more;
    when = now();
    return (int)held;
}

ssize_t write(int file, const void *bytes, size_t n)
{
    ssize_t (*real)(int, const void *, size_t) = (ssize_t (*)(int, const void *, size_t))next("write");
    ssize_t done = real(file, bytes, n);

    if (done > 0 && file != 2 && isatty(file))
        queue((double)done);
    return done;
}

ssize_t send(int file, const void *bytes, size_t n, int flags)
{
    ssize_t (*real)(int, const void *, size_t, int) = (ssize_t (*)(int, const void *, size_t, int))next("send");
    ssize_t done;

    if (number("LINE_AX25") > 0 && (double)n > number("LINE_AX25")) {
        errno = EMSGSIZE;
        return -1;
    }
    done = real(file, bytes, n, flags);
    if (done > 0)
        queue((double)done);
    return done;
}

int getsockname(int file, struct sockaddr *name, socklen_t *n)
{
    int (*real)(int, struct sockaddr *, socklen_t *) = (int (*)(int, struct sockaddr *, socklen_t *))next("getsockname");
    int done = real(file, name, n);

    if (done == 0 && number("LINE_AX25") > 0)
        name->sa_family = AF_AX25;
    return done;
}

int getsockopt(int file, int level, int option, void *value, socklen_t *n)
{
    int (*real)(int, int, int, void *, socklen_t *) = (int (*)(int, int, int, void *, socklen_t *))next("getsockopt");
    int done = real(file, level, option, value, n);

    if (done == 0 && number("LINE_AX25") > 0 && option == SO_SNDBUF)
        *(int *)value = ROOM;
    return done;
}

int ioctl(int file, unsigned long question, ...)
{
    int (*real)(int, unsigned long, ...) = (int (*)(int, unsigned long, ...))next("ioctl");
    va_list list;
    int *answer;

    va_start(list, question);
    answer = va_arg(list, int *);
    va_end(list);
    if (question == TIOCOUTQ && number("LINE_RATE") > 0) {
        *answer = number("LINE_AX25") > 0 ? ROOM - queue(0) : queue(0);
        return 0;
    }
    if (question == TIOCMGET && getenv("LINE_CARRIER")) {
        *answer = access(getenv("LINE_CARRIER"), F_OK) == 0 ? TIOCM_CAR : 0;
        return 0;
    }
    return real(file, question, answer);
}
