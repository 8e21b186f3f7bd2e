#include "door.h"
#include "fringemole.h"
#include "reason.h"
#include "refusal.h"
#include "stop.h"

#include <errno.h>
#include <poll.h>
#include <signal.h>
#include <stdlib.h>
#include <string.h>
#include <sys/socket.h>
#include <sys/wait.h>
#include <unistd.h>

#define READY 'R'
#define ENTER 'E'
#define LEAVE 'L'

#define BREATH (SECOND / 5) /* before a port that failed is asked again */

/* ---- in a caller's process */

/* A caller whose SID isn't one hears why, and hasn't come to the base. */
static void refuse(struct link *link, const struct fringemole_memory *lent, const struct heard *heard, unsigned refusal)
{
    struct reason theirs = { { 0 }, 0 };

    patience_part(&link->patience);
    reason_last(&theirs, heard);
    reason_say(link, lent);
    say("refusal %u: %s", refusal, refusal_words(refusal));
    reason_tell(&theirs);
}

bool door_hear_sid(struct link *link, const struct options *options, uint8_t role, enum exit_code *code)
{
    uint8_t session[FRINGEMOLE_SESSION_SIZE], bytes[LINK_PORTION];
    struct heard heard = { { 0 }, 0, false, false };
    struct fringemole_memory lent;
    struct fringemole_reply reply;

    memset(&lent, 0, sizeof lent);
    lent.session = session;
    lent.session_len = sizeof session;
    link_keep(link);
    *code = LINK_DROPPED;
    reply = fringemole_open_in(&lent, role, 0);
    while (reply.answer == FRINGEMOLE_OK) {
        long n;
        if (session[FRINGEMOLE_SESSION_PHASE] > FRINGEMOLE_LAST_SID_PHASE) {
            link_rewind(link, options);
            return true;
        }
        reply = fringemole_give_in(&lent, bytes, sizeof bytes, 0);
        if (!link_write(link, (struct part){ bytes, reply.count }))
            return false;
        n = link_read(link, bytes, sizeof bytes, true);
        if (n <= 0) {
            say("a caller left without a SID%s%s", link->over ? ": " : "", link->over ? link->over : "");
            return false;
        }
        reply = fringemole_receive_in(&lent, bytes, (size_t)n);
        heard_add(&heard, (struct part){ bytes, reply.count });
    }
    refuse(link, &lent, &heard, reply.answer);
    *code = REFUSED;
    return false;
}

static bool send_word(int talk, char word)
{
    return send(talk, &word, 1, MSG_NOSIGNAL) == 1;
}

bool door_enter(int talk)
{
    struct pollfd wait[2] = { { talk, POLLIN, 0 }, { stop_descriptor(), POLLIN, 0 } };
    char word = 0;

    if (!send_word(talk, READY))
        return false;
    while (poll(wait, 2, -1) < 0 && errno == EINTR && !stop_asked()) {
    }
    return !stop_asked() && read(talk, &word, 1) == 1 && word == ENTER;
}

void door_leave(int talk)
{
    send_word(talk, LEAVE);
}

/* ---- the doorkeeper */

struct caller {
    pid_t process;
    int talk;
    enum { COMING, WAITS, INSIDE, GOING } at;
};

struct door {
    int listener;
    const struct options *options;
    door_visit *visit;
    struct caller *callers; /* in the order in which they came */
    size_t count, most;
    struct pollfd *wait;
};

static void forget(struct door *door, size_t place)
{
    close(door->callers[place].talk);
    door->count--;
    memmove(door->callers + place, door->callers + place + 1, (door->count - place) * sizeof *door->callers);
}

/* Its process ends, or has ended: it is waited for here and nowhere else, so that its number is no other's until then. */
static void part_with(struct door *door, size_t place, int signal_to_it)
{
    pid_t process = door->callers[place].process;

    if (signal_to_it)
        kill(process, signal_to_it);
    forget(door, place);
    while (waitpid(process, NULL, 0) < 0 && errno == EINTR) {
    }
}

/* Whoever came first of those that aren't ready; false if all are. */
static bool make_room(struct door *door)
{
    size_t place;

    for (place = 0; place < door->count; place++) {
        if (door->callers[place].at == COMING || door->callers[place].at == GOING) {
            part_with(door, place, SIGKILL);
            say("a caller had to make room for another");
            return true;
        }
    }
    say("a caller found no room: %lu wait", (unsigned long)door->count);
    return false;
}

/* In the new process: what belongs to the doorkeeper is closed, so that its end is seen. */
static void be_caller(struct door *door, struct port *port, int talk)
{
    enum exit_code code;

    stop_watch(); /* its own */
    close(door->listener);
    while (door->count)
        forget(door, door->count - 1);
    free(door->callers);
    free(door->wait);
    code = door->visit(port, door->options, talk);
    stop_finish();
    exit(code);
}

static void receive_caller(struct door *door)
{
    struct port port;
    int ends[2];
    pid_t process;

    if (!tcp_accept(&port, door->listener)) {
        moment_sleep(BREATH);
        return;
    }
    if ((door->count == door->most && !make_room(door)) || socketpair(AF_UNIX, SOCK_STREAM, 0, ends)) {
        port_drop(&port);
        return;
    }
    process = fork();
    if (process == 0) {
        close(ends[0]);
        be_caller(door, &port, ends[1]);
    }
    close(ends[1]);
    port_drop(&port);
    if (process < 0) {
        say("no process for a caller: %s", strerror(errno));
        close(ends[0]);
        return;
    }
    door->callers[door->count++] = (struct caller){ process, ends[0], COMING };
}

static void hear_caller(struct door *door, size_t place)
{
    struct caller *caller = &door->callers[place];
    char word;

    if (read(caller->talk, &word, 1) != 1)
        part_with(door, place, 0);
    else
        caller->at = word == READY ? WAITS : GOING;
}

/* Lets the next one in, if nobody is inside. */
static void let_in(struct door *door)
{
    size_t place, next = door->count;

    for (place = door->count; place--;) {
        if (door->callers[place].at == INSIDE)
            return;
        if (door->callers[place].at == WAITS)
            next = place;
    }
    if (next < door->count && send_word(door->callers[next].talk, ENTER))
        door->callers[next].at = INSIDE;
}

/* What is waited for before the callers: the listener, and that we shall stop. */
#define OWN 2

static void keep(struct door *door)
{
    struct pollfd *wait = door->wait;
    size_t place, count = door->count;

    wait[0] = (struct pollfd){ door->listener, POLLIN, 0 };
    wait[1] = (struct pollfd){ stop_descriptor(), POLLIN, 0 };
    for (place = 0; place < count; place++)
        wait[OWN + place] = (struct pollfd){ door->callers[place].talk, POLLIN, 0 };
    if (poll(wait, OWN + count, -1) <= 0)
        return;
    for (place = count; place--;) {
        if (wait[OWN + place].revents)
            hear_caller(door, place);
    }
    if (wait[0].revents && !stop_asked())
        receive_caller(door);
    let_in(door);
}

enum exit_code door_keep(int listener, const struct options *options, door_visit *visit)
{
    struct door door = { listener, options, visit, NULL, 0, options->callers > 0 ? (size_t)options->callers : 1, NULL };

    door.callers = calloc(door.most, sizeof *door.callers);
    door.wait = calloc(door.most + OWN, sizeof *door.wait);
    if (!door.wait || !door.callers)
        give_up("no memory");
    while (!stop_asked())
        keep(&door);
    while (door.count)
        part_with(&door, door.count - 1, SIGTERM);
    free(door.callers);
    free(door.wait);
    return DONE;
}
