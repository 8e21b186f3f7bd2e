#include "agw.h"
#include "say.h"
#include "stop.h"

#include <string.h>

#define ASK (SECOND / 4)       /* between two questions what is outstanding */
#define ASK_AGAIN (5 * SECOND) /* if there was no answer */
#define LAST (5 * SECOND)      /* for the disconnect of a partner who had our last word: a frame and its answer at 1,200 bit/s, twice */
#define HEARD_MOST 65536       /* bytes that came; more stay with the TNC */

static const char retried_out[] = "RETRYOUT"; /* in the text of a disconnect: AX.25 has given the partner up */

/* ---- what the TNC says */

static void link_begins(struct agw *agw, const struct station *partner)
{
    agw->state = STANDS;
    agw->partner = *partner;
    agw->end = NULL;
    agw->lost = agw->anew = agw->asks = agw->spoke = false;
    agw->heard.n = 0;
    agw->sent = agw->acknowledged = agw->asked = 0;
}

static void link_ends(struct agw *agw, const char *how, bool lost)
{
    agw->state = OVER;
    agw->end = how;
    agw->lost = lost;
}

/* Between these two, on our radio; `either`: whichever is named first. */
static bool is_ours(const struct agw *agw, const struct frame *frame, bool either)
{
    const struct station *us = &agw->tnc.us, *partner = &agw->partner;

    return frame->radio == agw->tnc.radio
        && ((station_is(&frame->from, partner) && station_is(&frame->to, us))
            || (either && station_is(&frame->from, us) && station_is(&frame->to, partner)));
}

/* One session at a time, on one radio: others are told so by a disconnect. */
static void turn_away(struct agw *agw, const struct frame *frame)
{
    say("%s calls on radio %d, and is hung up on: %s", frame->from.text, frame->radio,
        frame->radio != agw->tnc.radio ? "that radio isn't ours" : agw->state == IDLE ? "we don't serve" : "another link stands");
    tnc_send_on(&agw->tnc, frame->radio, FRAME_DISCONNECT, &frame->from, part_of(""));
}

/* Whether the frame is done with: a partner who calls anew has lost the link that stands, and is heard when that is over. */
static bool take_connect(struct agw *agw, const struct frame *frame)
{
    if (!station_is(&frame->to, &agw->tnc.us) || !frame->from.text[0])
        return true;
    if (is_ours(agw, frame, false) && (agw->state == STANDS || agw->state == LEAVING)) {
        link_ends(agw, "the partner calls anew", true);
        agw->anew = true;
        return false;
    }
    if (frame->radio == agw->tnc.radio && ((agw->state == IDLE && agw->serves) || (agw->state == CALLING && is_ours(agw, frame, false))))
        link_begins(agw, &frame->from);
    else
        turn_away(agw, frame);
    return true;
}

static bool has(struct part text, const char *word)
{
    size_t n = strlen(word);

    for (; text.n >= n; text.at++, text.n--) {
        if (!memcmp(text.at, word, n))
            return true;
    }
    return false;
}

static void take_disconnect(struct agw *agw, const struct frame *frame)
{
    bool lost = has(frame_text(frame), retried_out);

    if (agw->state != IDLE && is_ours(agw, frame, true))
        link_ends(agw, lost ? "the radio link is lost (RETRYOUT)" : "the partner has disconnected", lost);
}

/* So many of the frames that we had sent when we asked are outstanding; a TNC that cuts ours into smaller ones counts more. */
static void take_outstanding(struct agw *agw, const struct frame *frame)
{
    uint32_t count;
    uint64_t acknowledged;

    if (!agw->asks || !is_ours(agw, frame, true))
        return;
    agw->asks = false;
    if (!frame_number(frame->data, &count)) {
        link_ends(agw, "the TNC's count of what is outstanding is no number", true);
        return;
    }
    acknowledged = count < agw->asked ? agw->asked - count : 0;
    if (acknowledged > agw->acknowledged)
        agw->acknowledged = acknowledged;
}

/* Whether the frame is done with. What is no matter of our link, or of a kind that we never asked for, is passed over. */
static bool take(struct agw *agw, const struct frame *frame)
{
    switch (frame->kind) {
    case FRAME_CONNECT:
        return take_connect(agw, frame);
    case FRAME_DATA:
        if (agw->state == STANDS && is_ours(agw, frame, false)) {
            bytes_add(&agw->heard, frame->data.at, frame->data.n);
            agw->spoke = false;
        }
        return true;
    case FRAME_DISCONNECT:
        take_disconnect(agw, frame);
        return true;
    case FRAME_OUTSTANDING:
        take_outstanding(agw, frame);
        return true;
    default:
        return true;
    }
}

/* Takes what came; whether there was anything. What comes after a link's end waits until that is seen. */
static bool take_all(struct agw *agw)
{
    struct frame frame;
    bool any = false;

    while (agw->state != OVER && agw->heard.n < HEARD_MOST && tnc_hear(&agw->tnc, &frame)) {
        any = true;
        if (take(agw, &frame))
            tnc_pass(&agw->tnc);
    }
    if (agw->tnc.gone[0] && agw->state != OVER)
        link_ends(agw, agw->tnc.gone, true);
    return any;
}

/* Until something came, or the time is over; if `stops`, or we are asked to stop. */
static void await(struct agw *agw, milliseconds time, bool stops)
{
    if (take_all(agw))
        return;
    tnc_wait(&agw->tnc, time, stops);
    take_all(agw);
}

static size_t outstanding(const struct agw *agw)
{
    return (size_t)(agw->sent - agw->acknowledged);
}

static void ask(struct agw *agw)
{
    milliseconds now = moment_now();

    if (agw->state != STANDS || !outstanding(agw) || now - agw->asked_at < (agw->asks ? ASK_AGAIN : ASK))
        return;
    if (!agw->asks)
        agw->asked = agw->sent; /* an answer that is late after all is one to the first question */
    agw->asks = true;
    agw->asked_at = now;
    tnc_send(&agw->tnc, FRAME_OUTSTANDING, &agw->partner, part_of(""));
}

/* Waits for an answer what is outstanding. */
static void await_room(struct agw *agw, milliseconds time)
{
    ask(agw);
    await(agw, time < ASK ? time : ASK, true);
}

/* ---- a port */

void agw_start(struct agw *agw, struct port *port)
{
    port_start(port, agw->tnc.socket, agw->tnc.socket);
    port->kind = TNC;
    port->agw = agw;
}

long agw_read(struct agw *agw, uint8_t *into, size_t room, milliseconds time)
{
    size_t n;

    if (!agw->heard.n && agw->state == STANDS)
        await(agw, time, true);
    n = agw->heard.n < room ? agw->heard.n : room;
    if (!n)
        return agw->state == STANDS ? PORT_SILENT : PORT_GONE;
    memcpy(into, agw->heard.at, n);
    agw->heard.n -= n;
    memmove(agw->heard.at, agw->heard.at + n, agw->heard.n);
    return (long)n;
}

long agw_write(struct agw *agw, struct part bytes, milliseconds time)
{
    if (outstanding(agw) == AGW_WINDOW)
        await_room(agw, time);
    else
        await(agw, 0, true);
    if (agw->state != STANDS)
        return PORT_GONE;
    if (outstanding(agw) == AGW_WINDOW)
        return PORT_SILENT;
    if (bytes.n > AGW_PORTION)
        bytes.n = AGW_PORTION;
    tnc_send(&agw->tnc, FRAME_DATA, &agw->partner, bytes);
    agw->sizes[agw->sent++ % AGW_WINDOW] = bytes.n;
    agw->spoke = true;
    return (long)bytes.n;
}

size_t agw_held(struct agw *agw)
{
    uint64_t number;
    size_t held = 0;

    ask(agw);
    for (number = agw->acknowledged; number < agw->sent; number++)
        held += agw->sizes[number % AGW_WINDOW];
    return held;
}

long agw_settle(struct agw *agw, milliseconds time)
{
    if (agw->state == STANDS && outstanding(agw))
        await_room(agw, time);
    if (agw->state == STANDS && outstanding(agw))
        return PORT_SILENT;
    return agw->lost ? PORT_GONE : 1;
}

/* A signal doesn't cut it short: without its disconnect the partner would wait for minutes. */
static void disconnect(struct agw *agw)
{
    milliseconds end = moment_now() + agw->leaving;

    agw->state = LEAVING;
    tnc_send(&agw->tnc, FRAME_DISCONNECT, &agw->partner, part_of(""));
    while (agw->state == LEAVING && moment_now() < end)
        await(agw, end - moment_now(), false);
    if (agw->state == LEAVING)
        say("the TNC doesn't tell that %s is disconnected", agw->partner.text);
    agw->state = OVER;
}

/* A link that has ended needs no disconnect: it would be put on the air all the same. */
void agw_drop(struct agw *agw)
{
    if (agw->state == STANDS || agw->state == CALLING)
        disconnect(agw);
}

/* Whoever hears the last word disconnects. If both did it, their frames would cross, and the TNC that is done first leaves the other's
 * without an answer; so who spoke last waits a while. */
static void await_disconnect(struct agw *agw, milliseconds end)
{
    while (agw->state == STANDS && agw->spoke && !stop_asked() && moment_now() < end)
        await(agw, end - moment_now(), true);
}

void agw_hang_up(struct agw *agw, milliseconds time)
{
    milliseconds end = moment_now() + time;

    while (!stop_asked() && moment_now() < end && agw_settle(agw, end - moment_now()) == PORT_SILENT) {
    }
    if (agw->state == STANDS && outstanding(agw))
        say("%s has not acknowledged our last %lu bytes", agw->partner.text, (unsigned long)agw_held(agw));
    else
        await_disconnect(agw, moment_now() + LAST < end ? moment_now() + LAST : end);
    agw_drop(agw);
}

/* ---- beginning and end */

bool agw_open(struct agw *agw, const char *address, uint8_t radio, const struct station *us, milliseconds leaving)
{
    memset(agw, 0, sizeof *agw);
    agw->leaving = leaving;
    return tnc_open(&agw->tnc, address, radio, us);
}

void agw_close(struct agw *agw)
{
    if (agw->anew) {
        tnc_pass(&agw->tnc);
        disconnect(agw);
    }
    agw_drop(agw);
    tnc_close(&agw->tnc);
    bytes_free(&agw->heard);
}

static void send_call(struct agw *agw, const struct station *via, size_t count)
{
    uint8_t data[1 + AGW_MAX_DIGIPEATERS * STATION_ROOM];
    size_t i;

    data[0] = (uint8_t)count;
    for (i = 0; i < count; i++)
        memcpy(data + 1 + i * STATION_ROOM, via[i].text, STATION_ROOM);
    tnc_send(&agw->tnc, count ? FRAME_CONNECT_VIA : FRAME_CONNECT, &agw->partner, (struct part){ data, count ? 1 + count * STATION_ROOM : 0 });
}

bool agw_call(struct agw *agw, const struct station *partner, const struct station *via, size_t count, milliseconds time)
{
    milliseconds end = moment_now() + time;

    agw->state = CALLING;
    agw->partner = *partner;
    send_call(agw, via, count);
    while (agw->state == CALLING && !stop_asked() && (!time || moment_now() < end))
        await(agw, time ? end - moment_now() : SECOND, true);
    if (agw->state == STANDS)
        return true;
    if (agw->tnc.gone[0])
        say("%s", agw->tnc.gone);
    else if (!stop_asked())
        say("%s %s", partner->text, agw->state == OVER && !agw->lost ? "refuses our call" : "doesn't answer");
    return false;
}

bool agw_answer(struct agw *agw)
{
    agw->serves = true;
    do {
        agw->state = IDLE; /* also when somebody came and went again before we looked */
        agw->anew = false;
        while (agw->state == IDLE && !stop_asked())
            await(agw, SECOND, true);
    } while (agw->state == OVER && !agw->tnc.gone[0]);
    return agw->state == STANDS;
}
