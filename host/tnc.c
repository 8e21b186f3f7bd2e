#include "tnc.h"
#include "port.h"
#include "say.h"
#include "stop.h"

#include <errno.h>
#include <fcntl.h>
#include <poll.h>
#include <stdio.h>
#include <string.h>
#include <unistd.h>

#define ANSWER (10 * SECOND)        /* in which a TNC says what it has */
#define ROOM (2 * FRAME_MAX_DATA)   /* for what came: always more than one whole frame */

/* ---- frames */

static void is_gone(struct tnc *tnc, const char *why, const char *more)
{
    if (!tnc->gone[0])
        snprintf(tnc->gone, sizeof tnc->gone, "%s%s", why, more);
}

static bool try_again(void)
{
    return errno == EINTR || errno == EAGAIN || errno == EWOULDBLOCK;
}

/* Drops the first n bytes. */
static void drop(struct bytes *store, size_t n)
{
    store->n -= n;
    memmove(store->at, store->at + n, store->n);
}

static void flush(struct tnc *tnc)
{
    while (tnc->out.n && !tnc->gone[0]) {
        ssize_t n = write(tnc->socket, tnc->out.at, tnc->out.n);
        if (n < 0 && !try_again())
            is_gone(tnc, "the TNC is gone: ", strerror(errno));
        if (n <= 0)
            return;
        drop(&tnc->out, (size_t)n);
    }
}

void tnc_send_on(struct tnc *tnc, uint8_t radio, uint8_t kind, const struct station *to, struct part data)
{
    struct frame frame = { radio, kind, tnc->us, *to, data };

    frame_add(&tnc->out, &frame);
    flush(tnc);
}

void tnc_send(struct tnc *tnc, uint8_t kind, const struct station *to, struct part data)
{
    tnc_send_on(tnc, tnc->radio, kind, to, data);
}

static void fetch(struct tnc *tnc)
{
    uint8_t some[FRAME_MAX_DATA];
    ssize_t n = read(tnc->socket, some, sizeof some);

    if (n > 0)
        bytes_add(&tnc->in, some, (size_t)n);
    else if (n == 0)
        is_gone(tnc, "the TNC has closed its connection", "");
    else if (!try_again())
        is_gone(tnc, "the TNC is gone: ", strerror(errno));
}

void tnc_wait(struct tnc *tnc, milliseconds time, bool stops)
{
    bool room = tnc->in.n < ROOM;
    struct pollfd wait[2] = { { tnc->socket, (short)((room ? POLLIN : 0) | (tnc->out.n ? POLLOUT : 0)), 0 }, { stop_descriptor(), POLLIN, 0 } };

    if (tnc->gone[0])
        return;
    if (poll(wait, stops ? 2 : 1, time > 0 ? (int)time : 0) <= 0)
        return;
    if (wait[0].revents && room)
        fetch(tnc);
    flush(tnc);
}

bool tnc_hear(struct tnc *tnc, struct frame *frame)
{
    size_t size;
    const char *wrong = frame_read(part_all(&tnc->in), frame, &size);

    if (wrong)
        is_gone(tnc, "the TNC sends what is no AGW: ", wrong);
    return !wrong && size > 0;
}

void tnc_pass(struct tnc *tnc)
{
    struct frame frame;
    size_t size;

    frame_read(part_all(&tnc->in), &frame, &size);
    drop(&tnc->in, size);
}

/* ---- the beginning */

/* The answer to a question; false if it never comes. */
static bool answer(struct tnc *tnc, uint8_t kind, struct frame *frame)
{
    milliseconds end = moment_now() + ANSWER;

    while (!stop_asked() && !tnc->gone[0]) {
        while (tnc_hear(tnc, frame)) {
            if (frame->kind == kind)
                return true;
            tnc_pass(tnc);
        }
        if (moment_now() >= end)
            is_gone(tnc, "the TNC doesn't answer as AGW has it", "");
        tnc_wait(tnc, end - moment_now(), true);
    }
    return false;
}

/* "2;Port1 first sound card;Port3 another one;": a radio is there by its number, or by the name that has it. */
static bool has_radio(struct part text, uint8_t radio)
{
    struct part counted = part_until(&text, ';');
    char name[16];
    long count;
    size_t n;

    if (part_number(counted, &count) && radio < count)
        return true;
    snprintf(name, sizeof name, "Port%d ", radio + 1);
    n = strlen(name);
    while (text.n) {
        struct part one = part_until(&text, ';');
        if (one.n >= n && !memcmp(one.at, name, n))
            return true;
    }
    return false;
}

/* Asks for the radios, then registers; what the TNC can't do is said by itself, what it says wrong by tnc->gone. */
static bool is_taken(struct tnc *tnc, const char *address)
{
    static const struct station nobody = { "" };
    struct frame frame;

    tnc_send(tnc, FRAME_RADIOS, &nobody, part_of(""));
    if (!answer(tnc, FRAME_RADIOS, &frame))
        return false;
    if (!has_radio(frame_text(&frame), tnc->radio)) {
        say("%s: the TNC has no radio %d (they are numbered from 0)", address, tnc->radio);
        return false;
    }
    tnc_pass(tnc);
    tnc_send(tnc, FRAME_REGISTER, &nobody, part_of(""));
    if (!answer(tnc, FRAME_REGISTER, &frame))
        return false;
    if (!frame.data.n || frame.data.at[0] != 1) {
        say("%s: the TNC doesn't take %s as ours; does another program use it?", address, tnc->us.text);
        return false;
    }
    tnc_pass(tnc);
    return true;
}

bool tnc_open(struct tnc *tnc, const char *address, uint8_t radio, const struct station *us)
{
    struct port port;
    bool right;

    memset(tnc, 0, sizeof *tnc);
    tnc->radio = radio;
    tnc->us = *us;
    right = tcp_call(&port, address);
    tnc->socket = port.in;
    if (!right)
        return false;
    fcntl(tnc->socket, F_SETFL, O_NONBLOCK);
    say_not_on(tnc->socket);
    right = is_taken(tnc, address);
    if (tnc->gone[0])
        say("%s: %s", address, tnc->gone);
    return right;
}

void tnc_close(struct tnc *tnc)
{
    if (tnc->socket >= 0)
        close(tnc->socket);
    tnc->socket = -1;
    bytes_free(&tnc->in);
    bytes_free(&tnc->out);
}
