#include "patience.h"
#include "fringemole.h"

#include <string.h>

#define LOOK (SECOND / 2)  /* between two looks at what has left, and at a carrier */
#define NEVER INT64_MAX
#define BODY_BYTES 4

/* What session memory says. */
static uint64_t body_of(const uint8_t *session)
{
    uint64_t value = 0;
    size_t i;

    for (i = BODY_BYTES; i--;)
        value = value << 8 | session[FRINGEMOLE_SESSION_BODY + i];
    return value;
}

void patience_start(struct patience *patience, const struct options *options)
{
    memset(patience, 0, sizeof *patience);
    patience->silence = options->timeout * SECOND;
    patience->sid = options->sid_limit * SECOND;
    patience->progress = options->progress_limit * SECOND;
    patience->session = options->session_limit * SECOND;
    patience->linger = options->linger * SECOND;
    patience->step = (uint64_t)options->least_rate * (uint64_t)options->progress_limit;
    if (!patience->step)
        patience->step = 1;
    patience->began = patience->moved = moment_now();
    patience->all_left = true;
}

void patience_watch(struct patience *patience, const uint8_t *session, bool spoke)
{
    uint8_t awaited = session[FRINGEMOLE_SESSION_PHASE], kept = session[FRINGEMOLE_SESSION_KEPT];
    uint64_t body = body_of(session);

    patience->greeted = awaited > FRINGEMOLE_LAST_SID_PHASE;
    if (spoke)
        patience->all_left = false;
    if (spoke || awaited != patience->awaited || kept != patience->kept || body < patience->body || body - patience->body >= patience->step) {
        patience->moved = moment_now();
        patience->body = body;
    }
    patience->awaited = awaited;
    patience->kept = kept;
}

void patience_part(struct patience *patience)
{
    milliseconds most = moment_now() - patience->began + patience->linger;

    if (patience->linger && (!patience->session || most < patience->session))
        patience->session = most;
}

void patience_look(struct patience *patience, const struct port *port)
{
    bool all_left = port->held == 0;

    if ((all_left && !patience->all_left) || port->left - patience->left >= patience->step) {
        patience->moved = moment_now();
        patience->left = port->left;
    }
    patience->all_left = all_left;
}

/* The moment at which a limit is reached that began then. */
static milliseconds end_of(milliseconds limit, milliseconds from)
{
    return limit ? from + limit : NEVER;
}

static milliseconds silent_at(const struct patience *patience, const struct port *port)
{
    milliseconds last = port->heard_at > port->left_at ? port->heard_at : port->left_at;

    return end_of(patience->silence, last);
}

const char *patience_over(const struct patience *patience, const struct port *port)
{
    milliseconds now = moment_now();

    if (now >= silent_at(patience, port))
        return port->held ? "the port takes no more bytes" : "the partner is silent";
    if (!patience->greeted && now >= end_of(patience->sid, patience->began))
        return "no SID came in time (--sid-limit)";
    if (now >= end_of(patience->progress, patience->moved))
        return "no progress (--progress-limit)";
    if (now >= end_of(patience->session, patience->began))
        return "the session takes too long (--session-limit)";
    return NULL;
}

milliseconds patience_left(const struct patience *patience, const struct port *port)
{
    milliseconds now = moment_now();
    const milliseconds ends[] = {
        now + LOOK, silent_at(patience, port), end_of(patience->greeted ? 0 : patience->sid, patience->began),
        end_of(patience->progress, patience->moved), end_of(patience->session, patience->began)
    };
    milliseconds least = ends[0];
    size_t i;

    for (i = 1; i < sizeof ends / sizeof ends[0]; i++) {
        if (ends[i] < least)
            least = ends[i];
    }
    return least > now ? least - now : 0;
}
