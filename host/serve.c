#include "serve.h"
#include "door.h"
#include "forward.h"
#include "guest.h"
#include "login.h"
#include "partner.h"
#include "session.h"

#include <string.h>
#include <unistd.h>

#define NO_DOOR (-1)

/* The header that we put on messages names no other station. A base without a callsign is anybody's. */
static bool header_is_ours(struct base *base, const char *header)
{
    struct bytes call = { NULL, 0, 0 };
    struct part mailbox = part_of(header);
    bool right = base_call(base, &call);

    bytes_add(&call, "", 1);
    if (right && call.n > 1 && !part_names(part_until(&mailbox, '.'), (const char *)call.at)) {
        say("--header: %s is not a mailbox of %s, whose base this is", header, (const char *)call.at);
        right = false;
    }
    bytes_free(&call);
    return right;
}

/* A base for one session; NULL after saying why there is none. */
static struct base *base_for_session(const struct options *options)
{
    struct base *base = base_open(options->base, CHANGING);

    if (base && base_lock_session(base) && (!options->header || header_is_ours(base, options->header)))
        return base;
    base_close(base);
    return NULL;
}

bool serve_base_is_there(const struct options *options)
{
    struct base *base = base_for_session(options);

    base_close(base);
    return base != NULL;
}

/* Where nobody tells whom a session is with: --partner, or else the base's one partner. */
static enum exit_code guess_partner(struct base *base, const struct options *options, struct bytes *partner)
{
    struct call call;
    long long count = 0;

    if (call_read(part_of(options->partner), &call)) {
        bytes_add(partner, call.text, strlen(call.text));
        return DONE;
    }
    if (!forward_one(base, &count, partner))
        return BAD_BASE;
    if (count == 1)
        return DONE;
    say("%s: the base has %lld partners; say with --partner which of them this is", options->base, count);
    return BAD_USAGE;
}

/* Whom the session is with, and its place; a partner that had none has one now. */
static enum exit_code find_partner(struct base *base, const struct options *options, const struct call *caller, struct session_terms *terms,
    struct bytes *partner)
{
    enum exit_code code = DONE;

    if (caller->text[0])
        bytes_add(partner, caller->text, strlen(caller->text));
    else
        code = guess_partner(base, options, partner);
    terms->partner = part_all(partner);
    if (code != DONE)
        return code;
    if (!base_begin(base))
        return BAD_BASE;
    if (forward_join(base, terms->partner, &terms->place) && (!caller->text[0] || partner_seen(base, terms->partner)) && base_commit(base))
        return DONE;
    base_undo(base);
    return BAD_BASE;
}

/* Before anybody is called, or listened to: whether it will be clear whom a session is with that nobody tells. */
static enum exit_code partner_is_clear(const struct options *options)
{
    struct base *base = base_open(options->base, READING);
    struct bytes partner = { NULL, 0, 0 };
    enum exit_code code = base ? guess_partner(base, options, &partner) : BAD_BASE;

    bytes_free(&partner);
    base_close(base);
    return code;
}

/* Standard error shows no transcript. */
static bool is_quiet(const struct options *options)
{
    return !options->transcript || strcmp(options->transcript, "-");
}

/* The session itself, on a link that stands. */
static enum exit_code run_on(struct link *link, const struct options *options, uint8_t role, const struct call *caller)
{
    struct base *base = base_for_session(options);
    struct bytes partner = { NULL, 0, 0 };
    struct session_terms terms = { role, (size_t)options->room, part_of(""), 0, part_of(options->header ? options->header : ""),
        options->blank_offset, progress_is_watched(options->panel, is_quiet(options)) };
    enum exit_code code = BAD_BASE;

    if (base && options->login && !login(link, options)) {
        code = LINK_DROPPED;
    } else if (base) {
        code = find_partner(base, options, caller, &terms, &partner);
        if (code == DONE)
            code = session_run(base, link, &terms);
    }
    bytes_free(&partner);
    base_close(base);
    if (code == DONE)
        say("the session ended by FQ");
    return code;
}

static enum exit_code run_session(struct link *link, const struct options *options, uint8_t role, const struct call *caller)
{
    enum exit_code code = FAILED;

    progress_start(&link->progress, progress_is_watched(options->progress, is_quiet(options)));
    if (transcript_open(&link->transcript, options->transcript)) {
        code = run_on(link, options, role, caller);
        if (!transcript_close(&link->transcript) && code == DONE)
            code = FAILED;
    }
    return code;
}

static bool is_admitted(struct link *link, const struct options *options, struct call *caller)
{
    if (options->from)
        return guest_told(options, caller);
    if (options->with && !call_read(part_of(options->with), caller))
        caller->text[0] = 0; /* an alias names nobody */
    return !options->asks || guest_asked(link, options, caller);
}

/* All that happens on an open port. With a door, the caller says its SID before it is let in. */
static enum exit_code hold(struct port *port, const struct options *options, uint8_t role, int talk)
{
    struct link link;
    struct call caller = { "" };
    enum exit_code code = NOT_ADMITTED;
    bool over = true;

    say_not_on(port->in);
    say_not_on(port->out);
    role = options->caller ? FRINGEMOLE_CALLER : options->called ? FRINGEMOLE_CALLED : role;
    link_start(&link, port, options);
    if (is_admitted(&link, options, &caller)
        && (talk == NO_DOOR || (door_hear_sid(&link, options, role, &code) && door_enter(talk)))) {
        code = run_session(&link, options, role, &caller);
        over = false;
        if (talk != NO_DOOR)
            door_leave(talk);
    }
    if (code == REFUSED)
        over = false; /* whoever was told why, at the door too, should have time to read it */
    if (over || link.left_until_drop == 0 || link.over)
        port_drop(&link.port);
    else
        port_hang_up(&link.port, options->linger * SECOND);
    link_end(&link);
    return code;
}

enum exit_code serve_on(struct port *port, const struct options *options, uint8_t role)
{
    return hold(port, options, role, NO_DOOR);
}

/* ---- the ports */

enum exit_code serve_call(const struct options *options)
{
    struct port port;
    enum exit_code clear;

    if (!serve_base_is_there(options))
        return BAD_BASE;
    clear = partner_is_clear(options);
    if (clear != DONE)
        return clear;
    return tcp_call(&port, options->arguments[0]) ? hold(&port, options, FRINGEMOLE_CALLER, NO_DOOR) : BAD_PORT;
}

enum exit_code serve_serial(const struct options *options)
{
    struct port port;
    enum exit_code clear;

    if (!serve_base_is_there(options))
        return BAD_BASE;
    clear = partner_is_clear(options);
    if (clear != DONE)
        return clear;
    return serial_open(&port, options->arguments[0], options->arguments[1], options->flow) ? hold(&port, options, FRINGEMOLE_CALLED, NO_DOOR)
                                                                                            : BAD_PORT;
}

enum exit_code serve_stdio(const struct options *options)
{
    struct options with = *options;
    struct port port;

    stdio_open(&port);
    if (!options->from && !options->anyone && port.kind == PACKETS) {
        say_not_on(port.out);
        say("somebody calls by radio, and nobody says who; give --from CALL, or --anyone");
        return BAD_USAGE;
    }
    with.asks = !options->anyone && port.kind == STREAM && tcp_is_outside(port.in);
    return hold(&port, &with, FRINGEMOLE_CALLED, NO_DOOR);
}

static enum exit_code visit(struct port *port, const struct options *options, int talk)
{
    return hold(port, options, FRINGEMOLE_CALLED, talk);
}

/* Whether callers from outside can be told apart, or needn't be. */
static bool may_listen(const struct options *options)
{
    if (options->anyone)
        say("--anyone: whoever calls here gets our mail, and what is taken counts as forwarded");
    else if (options->asks && !guest_expected(options)) {
        say("%s: callers from outside must log in, and no partner has a password; see admit, or --anyone, which lets all of them have our mail",
            options->arguments[0]);
        return false;
    }
    return true;
}

static enum exit_code answer(int listener, const struct options *options)
{
    struct port port;

    if (!options->once)
        return door_keep(listener, options, visit);
    return tcp_accept(&port, listener) ? hold(&port, options, FRINGEMOLE_CALLED, NO_DOOR) : BAD_PORT;
}

enum exit_code serve_listen(const struct options *options)
{
    struct options with = *options;
    enum exit_code code;
    bool inside = false;
    int listener;

    if (!serve_base_is_there(options))
        return BAD_BASE;
    listener = tcp_listen(options->arguments[0], &inside);
    if (listener < 0)
        return BAD_PORT;
    with.asks = !inside && !options->anyone;
    code = with.asks ? DONE : partner_is_clear(options);
    if (code == DONE)
        code = may_listen(&with) ? answer(listener, &with) : BAD_USAGE;
    close(listener);
    return code;
}
