#include "radio.h"
#include "agw.h"
#include "fringemole.h"
#include "serve.h"
#include "stop.h"

#include <poll.h>
#include <string.h>

#define LAST_RADIO 255
#define LEAST_LEAVING (10 * SECOND) /* for the disconnect, however short we linger */
#define FIRST_BREATH SECOND         /* before a TNC that is gone is tried again; then twice as long */
#define LONGEST_BREATH (60 * SECOND)

/* The words of the command. */
struct plan {
    const char *address;
    uint8_t radio;
    struct station us, partner, via[AGW_MAX_DIGIPEATERS];
    size_t count; /* of digipeaters */
};

static bool is_station(const char *text, struct station *station)
{
    bool right = station_read(part_of(text), station);

    if (!right)
        say("%s: no station (1 to 6 letters and digits, with -1 to -15 after them or nothing)", text);
    return right;
}

/* CALL [via CALL..] */
static bool plan_call(const struct options *options, struct plan *plan)
{
    char **words = options->arguments + RADIO_WORDS;
    int at, count = options->count - RADIO_WORDS;

    if (count == 0) {
        say("agw: give the partner to call, or --listen");
        return false;
    }
    if (count > 1 && (count == RADIO_CALL_WORDS || !part_names(part_of(words[1]), "via"))) {
        say("agw: after the partner comes nothing, or via and digipeaters");
        return false;
    }
    for (at = RADIO_CALL_WORDS; at < count; at++) {
        if (!is_station(words[at], &plan->via[plan->count++]))
            return false;
    }
    return is_station(words[0], &plan->partner);
}

static bool plan_all(const struct options *options, struct plan *plan)
{
    memset(plan, 0, sizeof *plan);
    plan->address = options->arguments[0];
    plan->radio = (uint8_t)options->radio;
    if (options->radio > LAST_RADIO) {
        say("--radio: at most %d", LAST_RADIO);
        return false;
    }
    if (!is_station(options->arguments[1], &plan->us))
        return false;
    if (!options->listen)
        return plan_call(options, plan);
    if (options->count > RADIO_WORDS)
        say("agw: --listen names no partner; see admit");
    return options->count == RADIO_WORDS;
}

static bool open_tnc(struct agw *agw, const struct plan *plan, const struct options *options)
{
    milliseconds linger = options->linger * SECOND;

    return agw_open(agw, plan->address, plan->radio, &plan->us, linger > LEAST_LEAVING ? linger : LEAST_LEAVING);
}

static enum exit_code call(const struct plan *plan, const struct options *options)
{
    struct options with = *options;
    struct agw agw;
    struct port port;
    enum exit_code code = BAD_PORT;

    with.with = plan->partner.text;
    if (open_tnc(&agw, plan, options)) {
        code = LINK_DROPPED;
        if (agw_call(&agw, &plan->partner, plan->via, plan->count, options->sid_limit * SECOND)) {
            say("linked with %s", plan->partner.text);
            agw_start(&agw, &port);
            code = serve_on(&port, &with, FRINGEMOLE_CALLER);
        }
    }
    agw_close(&agw);
    return code;
}

/* One who has called. Its callsign is told by AX.25: only partners are served. */
static enum exit_code serve_caller(struct agw *agw, const struct options *options)
{
    struct options with = *options;
    struct station caller = agw->partner;
    struct port port;

    say("%s calls", caller.text);
    with.with = caller.text;
    with.from = options->anyone ? NULL : caller.text;
    agw_start(agw, &port);
    return serve_on(&port, &with, FRINGEMOLE_CALLED);
}

/* Serves as long as the TNC is there; with --once, one caller. Whether that is all. */
static bool serve_callers(struct agw *agw, const struct plan *plan, const struct options *options, enum exit_code *code)
{
    say("listening as %s on radio %d of %s", plan->us.text, plan->radio, plan->address);
    while (agw_answer(agw)) {
        *code = serve_caller(agw, options);
        if (options->once)
            return true;
    }
    if (!stop_asked())
        say("%s: %s; it is tried again", plan->address, agw->tnc.gone);
    return stop_asked();
}

/* The TNC may go away and come back. One that isn't there at first is an error. */
static enum exit_code listen_by_radio(const struct plan *plan, const struct options *options)
{
    struct pollfd stop = { stop_descriptor(), POLLIN, 0 };
    milliseconds breath = FIRST_BREATH;
    enum exit_code code = BAD_PORT;
    bool done = false, ever = false;

    while (!done) {
        struct agw agw;
        if (open_tnc(&agw, plan, options)) {
            code = DONE;
            ever = true;
            breath = FIRST_BREATH;
            done = serve_callers(&agw, plan, options, &code);
        }
        agw_close(&agw);
        done = done || !ever || stop_asked();
        if (!done)
            poll(&stop, 1, (int)breath);
        breath = 2 * breath < LONGEST_BREATH ? 2 * breath : LONGEST_BREATH;
    }
    return code;
}

enum exit_code radio_serve(const struct options *options)
{
    struct plan plan;

    if (!plan_all(options, &plan))
        return BAD_USAGE;
    if (!serve_base_is_there(options))
        return BAD_BASE;
    return options->listen ? listen_by_radio(&plan, options) : call(&plan, options);
}
