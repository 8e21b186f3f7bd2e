#include "stop.h"
#include "say.h"

#include <errno.h>
#include <fcntl.h>
#include <signal.h>
#include <string.h>
#include <unistd.h>

static volatile sig_atomic_t asked;
static int ends[2] = { -1, -1 };

static void note(int number)
{
    int fault = errno;
    ssize_t n = write(ends[1], "", 1); /* a full pipe wakes as well */

    (void)n;
    asked = number;
    errno = fault;
}

/* Not restarted: a read or write that waits ends with EINTR. A signal that our parent has us ignore stays ignored. */
static void watch(int number)
{
    struct sigaction action;

    if (sigaction(number, NULL, &action) == 0 && action.sa_handler == SIG_IGN)
        return;
    memset(&action, 0, sizeof action);
    action.sa_handler = note;
    sigemptyset(&action.sa_mask);
    sigaction(number, &action, NULL);
}

void stop_watch(void)
{
    int i;

    if (pipe(ends))
        give_up("no pipe for signals");
    for (i = 0; i < 2; i++) {
        fcntl(ends[i], F_SETFD, FD_CLOEXEC);
        fcntl(ends[i], F_SETFL, O_NONBLOCK);
    }
    watch(SIGINT);
    watch(SIGTERM);
}

int stop_asked(void)
{
    return asked;
}

const char *stop_name(void)
{
    return asked == SIGINT ? "SIGINT" : "SIGTERM";
}

int stop_descriptor(void)
{
    return ends[0];
}

/* By the signal itself, so that a shell and a service manager see what it was (128 and its number: 130, 143). */
void stop_finish(void)
{
    if (!asked)
        return;
    say("ended by %s", stop_name());
    signal(asked, SIG_DFL);
    raise(asked);
}
