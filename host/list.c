/* list: both boxes as tables, with a state a partner. sessions: what each session did. release: held messages wait again. */
#include "base.h"
#include "boxes.h"
#include "forward.h"
#include "history.h"
#include "level.h"
#include "reason.h"
#include "refusal.h"
#include "show.h"
#include "text.h"

#include <stdio.h>
#include <string.h>

static void show_message(const struct message *message)
{
    printf("%-8s%c  ", message->form <= PACKED_FILE ? form_names[message->form] : "?", message->type);
    show_field(message->from, 8);
    show_field(message->to, 8);
    show_field(message->at, 20);
    show_field(message->bid, 14);
    printf("%6lu  ", (unsigned long)message->body.n);
    text_show(stdout, message->form == PACKED_FILE ? message->name : message->title);
    if (message->form != PLAIN_TEXT && message->level)
        printf("  (level %u%s)", message->level, level_fault(message) ? ", with a wrong check" : "");
    if (!part_same(message->bid, message->first_bid)) {
        printf("  (the same BID as ");
        text_show(stdout, message->first_bid);
        putchar(')');
    }
    putchar('\n');
}

#define STATE_WIDTH 11

/* What is listed: the partners, where there are several, and whether a row was there. */
struct listing {
    struct base *base;
    char heads[FRINGEMOLE_PARTNERS][STATE_WIDTH + 1];
    uint8_t places[FRINGEMOLE_PARTNERS];
    long long waiting[FRINGEMOLE_PARTNERS], bytes[FRINGEMOLE_PARTNERS];
    size_t partners;
    bool has_rows;
};

/* The table's head comes with its first row; one partner is the partner, and needs no name. */
static void show_head(struct listing *listing, const char *box, bool by_partner)
{
    size_t i;

    if (listing->has_rows)
        return;
    listing->has_rows = true;
    printf("%s\n   no  ", box);
    for (i = 0; by_partner && i < listing->partners; i++)
        printf("%-*s", STATE_WIDTH, listing->heads[i]);
    printf("%-*sform    t  from    to      at                  BID            bytes  title or name\n", by_partner ? 0 : STATE_WIDTH,
        by_partner ? "" : "state");
}

static const char *name_of(const struct message *message, uint8_t state)
{
    if (state == FORWARD_NOT_FOR)
        return "-";
    if (message->state == HELD && state == WAITING)
        return state_names[HELD];
    return message->state == WAITING || message->state == HELD ? state_names[state] : "?";
}

static bool show_outgoing(void *context, const struct message *message)
{
    struct listing *listing = context;
    uint8_t states[FRINGEMOLE_PARTNERS];
    size_t i;

    if (!forward_states(listing->base, message->number, states))
        return false;
    show_head(listing, "outbox", listing->partners > 1);
    printf("%5lld  ", message->number);
    for (i = 0; i < listing->partners; i++)
        printf("%-*s", STATE_WIDTH, name_of(message, states[listing->places[i]]));
    show_message(message);
    return show_goes_on();
}

/* A copy is of a BID that the base had already. */
static bool show_incoming(void *context, const struct message *message)
{
    char copy[32];

    show_head(context, "inbox", false);
    snprintf(copy, sizeof copy, "copy %lld", message->copy);
    printf("%5lld  %-*s", message->number, STATE_WIDTH, message->copy ? copy : "kept");
    show_message(message);
    return show_goes_on();
}

static bool take_partner(void *context, const struct forward *forward)
{
    struct listing *listing = context;

    snprintf(listing->heads[listing->partners], sizeof listing->heads[0], "%.*s", (int)forward->call.n, (const char *)forward->call.at);
    listing->waiting[listing->partners] = forward->waiting;
    listing->bytes[listing->partners] = forward->bytes;
    listing->places[listing->partners++] = forward->place;
    return listing->partners < FRINGEMOLE_PARTNERS;
}

/* As a session's front panel shows it. */
static void show_waiting(const struct listing *listing)
{
    bool one = listing->partners == 1;
    size_t i;

    for (i = 0; i < listing->partners; i++)
        printf("%lld waiting%s%s, %lld bytes\n", listing->waiting[i], one ? "" : " for ", one ? "" : listing->heads[i], listing->bytes[i]);
}

enum exit_code boxes_list(const struct options *options)
{
    struct base *base = base_open(options->base, READING);
    struct listing listing;
    long long known = 0;
    bool right;

    memset(&listing, 0, sizeof listing);
    listing.base = base;
    right = base && forward_each(base, take_partner, &listing) && base_each(base, OUTBOX, show_outgoing, &listing);
    if (right && !listing.has_rows)
        puts("outbox: empty");
    listing.has_rows = false;
    right = right && base_each(base, INBOX, show_incoming, &listing);
    if (right && !listing.has_rows)
        puts("inbox: empty");
    right = right && base_count_known(base, &known);
    if (right) {
        printf("%lld BIDs known\n", known);
        show_waiting(&listing);
    }
    base_close(base);
    return right ? DONE : show_goes_on() ? BAD_BASE : FAILED;
}

/* ---- sessions */

/* What nobody noted is left blank. */
static void show_number(bool noted, unsigned long number, int width)
{
    if (noted)
        printf("%*lu ", width, number);
    else
        printf("%*s ", width, "");
}

static void show_panel(const struct history *session)
{
    const struct panel *panel = &session->panel;

    show_number(session->has_panel, panel->proposed, 8);
    show_number(session->ended, panel->forwarded, 9);
    show_number(session->ended, panel->declined, 8);
    show_number(session->ended, panel->deferred, 8);
    show_number(session->has_panel, panel->unsettled, 9);
    show_number(session->has_panel, panel->waiting, 7);
    show_number(session->has_panel, panel->bytes, 8);
}

static bool show_session(void *shown, const struct history *session)
{
    bool *has_rows = shown;

    if (!*has_rows)
        puts("   no  began (UTC)          seconds  role    partner  proposed forwarded declined deferred unsettled waiting    bytes kept    sent received  end");
    *has_rows = true;
    printf("%5lld  ", session->number);
    show_time(session->began);
    printf("  ");
    if (session->ended)
        printf("%7lld", session->ended - session->began);
    else
        printf("%7s", "");
    printf("  %-8s", session->role == FRINGEMOLE_CALLER ? "caller" : "called");
    show_field(session->partner, 9);
    show_panel(session);
    printf("%4lu %7lu %8lu  ", session->kept, session->sent, session->received);
    text_show(stdout, session->ended ? session->ending : part_of("not ended"));
    if (session->refusal)
        printf(", %u: %s: ", session->refusal, reason_is(session->line) ? "the partner says why" : refusal_words(session->refusal));
    else if (session->line.n)
        printf(", the partner says why: ");
    text_show(stdout, session->line);
    putchar('\n');
    return show_goes_on();
}

enum exit_code boxes_sessions(const struct options *options)
{
    struct base *base = base_open(options->base, READING);
    bool any = false, right = base && history_each(base, show_session, &any);

    if (right && !any)
        puts("no sessions yet");
    base_close(base);
    return right ? DONE : show_goes_on() ? BAD_BASE : FAILED;
}

/* ---- release */

/* All of them, or none. */
enum exit_code boxes_release(const struct options *options)
{
    struct base *base = base_open(options->base, CHANGING);
    bool right = base && base_begin(base), found = true;
    int i;

    for (i = 0; right && found && i < options->count; i++) {
        right = base_release(base, part_of(options->arguments[i]), &found);
        if (right && !found)
            say("%s: no message with this BID is held", options->arguments[i]);
    }
    if (right && found)
        right = base_commit(base);
    base_close(base);
    return !right ? BAD_BASE : found ? DONE : BAD_USAGE;
}
