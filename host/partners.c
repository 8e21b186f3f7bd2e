#include "partners.h"
#include "call.h"
#include "fault.h"
#include "forward.h"
#include "partner.h"
#include "secret.h"

#include <stdio.h>
#include <string.h>
#include <time.h>

static bool read_call(const struct options *options, struct call *call)
{
    bool right = call_read(part_of(options->arguments[0]), call);

    if (!right)
        say("%s: no callsign (3 to 6 letters and digits, at least one of each)", options->arguments[0]);
    return right;
}

/* In one transaction; no row without a place. */
static bool admit(struct base *base, struct part call, struct part password)
{
    uint8_t place;

    if (!base_begin(base))
        return false;
    if (forward_join(base, call, &place) && partner_set(base, call, password) && base_commit(base))
        return true;
    base_undo(base);
    return false;
}

static bool dismiss(struct base *base, struct part call, bool *found)
{
    if (!base_begin(base))
        return false;
    if (partner_remove(base, call, found) && forward_leave(base, call, found) && base_commit(base))
        return true;
    base_undo(base);
    return false;
}

enum exit_code partners_admit(const struct options *options)
{
    struct secret secret = { "" };
    struct base *base;
    struct call call;
    bool right;

    if (!read_call(options, &call))
        return BAD_USAGE;
    if (options->count > 1 && !secret_read(options->arguments[1], &secret))
        return BAD_FILE;
    base = base_open(options->base, CHANGING);
    right = base && admit(base, part_of(call.text), part_of(secret.text));
    base_close(base);
    if (right)
        say("%s may call%s", call.text, secret.text[0] ? ", with a password" : ", but not from outside by TCP: it has no password");
    return right ? DONE : BAD_BASE;
}

enum exit_code partners_dismiss(const struct options *options)
{
    struct base *base;
    struct call call;
    bool right, found = false;

    if (!read_call(options, &call))
        return BAD_USAGE;
    base = base_open(options->base, CHANGING);
    right = base && dismiss(base, part_of(call.text), &found);
    base_close(base);
    if (right && !found)
        say("%s: no such partner", call.text);
    return !right ? BAD_BASE : found ? DONE : BAD_USAGE;
}

static void show_row(struct part call, bool has_password, long long last, const char *place, const char *more)
{
    time_t seen = (time_t)last;
    char when[32] = "never";

    if (last)
        strftime(when, sizeof when, "%Y-%m-%d %H:%M", gmtime(&seen));
    printf("%-8.*s%-10s%-18s%s%s\n", (int)call.n, (const char *)call.at, has_password ? "yes" : "no", when, place, more);
}

/* Who may call and has no place is of an older base, which had room for more than eight. */
static bool show_placeless(void *context, const struct partner *partner)
{
    long long place = -1;

    if (!forward_find(context, partner->call, &place))
        return false;
    if (place < 0)
        show_row(partner->call, partner->has_password, partner->seen, "none", "");
    return true;
}

static bool show_forward(void *context, const struct forward *forward)
{
    char place[80];

    (void)context;
    snprintf(place, sizeof place, "%u, %lld waiting, %lld bytes", forward->place, forward->waiting, forward->bytes);
    if (forward->call.n)
        show_row(forward->call, forward->has_password, forward->seen, place, forward->may_call ? "" : "; may not call");
    return true;
}

enum exit_code partners_list(const struct options *options)
{
    struct base *base = base_open(options->base, READING);
    bool right = base != NULL;

    if (right) {
        puts("call    password  last seen (UTC)   place");
        right = forward_each(base, show_forward, NULL) && partner_each(base, show_placeless, base);
    }
    base_close(base);
    return right ? DONE : BAD_BASE;
}

/* ---- routes, and where a message goes */

static bool show_route(void *context, struct part route, struct part call)
{
    (void)context;
    printf("%-34.*s%.*s\n", (int)route.n, (const char *)route.at, (int)call.n, (const char *)call.at);
    return true;
}

enum exit_code partners_routes(const struct options *options)
{
    struct base *base = base_open(options->base, READING);
    bool right = base != NULL;

    if (right) {
        puts("private mail at                   goes to");
        right = forward_each_route(base, show_route, NULL);
        puts("any other                         the first partner\nbulletins                         all partners");
    }
    base_close(base);
    return right ? DONE : BAD_BASE;
}

/* A route is as an at-field is, or *. */
static bool is_route(struct part route)
{
    struct message message;

    memset(&message, 0, sizeof message);
    message.type = 'P';
    message.from = message.to = message.bid = message.title = part_of("A");
    message.at = route;
    return !message_fault(&message);
}

static enum exit_code set_route(struct base *base, struct part route, struct part call)
{
    long long place = -1;
    bool found = false;

    if (call.n && (!forward_find(base, call, &place) || place < 0)) {
        if (place < 0)
            say("%.*s: no partner; see admit", (int)call.n, (const char *)call.at);
        return place < 0 ? BAD_USAGE : BAD_BASE;
    }
    if (!forward_set_route(base, route, call, &found))
        return BAD_BASE;
    if (!found)
        say("%.*s: no such route", (int)route.n, (const char *)route.at);
    return found ? DONE : BAD_USAGE;
}

enum exit_code partners_route(const struct options *options)
{
    struct part route = part_of(options->arguments[0]);
    struct call call = { "" };
    struct base *base;
    enum exit_code code;

    if (!part_is(route, "*") && !is_route(route)) {
        say("%s: no route (parts of 1 to 6 bytes joined by dots, as in an at-field, or *)", options->arguments[0]);
        return BAD_USAGE;
    }
    if (options->count > 1 && !call_read(part_of(options->arguments[1]), &call)) {
        say("%s: no callsign (3 to 6 letters and digits, at least one of each)", options->arguments[1]);
        return BAD_USAGE;
    }
    base = base_open(options->base, CHANGING);
    code = base ? set_route(base, route, part_of(call.text)) : BAD_BASE;
    base_close(base);
    return code;
}

/* The first message of the outbox of a BID. */
static bool take_number(void *context, const struct message *message)
{
    long long *number = context;

    *number = *number ? *number : message->number;
    return true;
}

static enum exit_code direct(struct base *base, const char *bid, struct part calls)
{
    struct part wrong;
    long long number = 0;

    if (!base_each_of(base, OUTBOX, part_of(bid), take_number, &number))
        return BAD_BASE;
    if (!number) {
        say("%s: no message of the outbox has this BID", bid);
        return BAD_USAGE;
    }
    if (!forward_to(base, number, calls, &wrong))
        return BAD_BASE;
    if (wrong.n)
        say("--for: %.*s is no partner of the base", (int)wrong.n, (const char *)wrong.at);
    return wrong.n ? BAD_USAGE : DONE;
}

/* All of them, or none. */
enum exit_code partners_forward(const struct options *options)
{
    struct base *base;
    enum exit_code code;
    int i;

    if (!options->for_whom[0]) {
        say("forward: say with --for for whom");
        return BAD_USAGE;
    }
    base = base_open(options->base, CHANGING);
    code = base && base_begin(base) ? DONE : BAD_BASE;
    for (i = 0; code == DONE && i < options->count; i++)
        code = direct(base, options->arguments[i], part_of(options->for_whom));
    if (code == DONE && !base_commit(base))
        code = BAD_BASE;
    base_close(base);
    return code;
}
