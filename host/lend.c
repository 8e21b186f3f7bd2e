#include "lend.h"
#include "fault.h"
#include "forward.h"
#include "level.h"
#include "route.h"
#include "say.h"
#include "text.h"

#include <stdlib.h>

struct lending {
    struct shelf *shelf;
    struct base *base;
    const struct lend_terms *terms;
    const char *unrouted[FRINGEMOLE_MAX_RECORDS]; /* why a record goes without it, or NULL */
    long long bad[FRINGEMOLE_MAX_RECORDS]; /* numbers of messages to hold */
    size_t count;
    bool judges_known; /* only once open has refused: there are many */
};

static void say_held(long long number, struct part bid, const char *rule)
{
    char *shown = text_copy(bid);

    say("message %lld of the base, BID %s, is held: %s", number, shown, rule);
    free(shown);
}

#define TWIN "another message of the outbox has this BID"

/* With our routing header, if there shall be one; a packed text in the form of the level. */
static bool put_on_shelf(struct lending *lending, const struct message *message)
{
    struct bytes store = { NULL, 0, 0 };
    struct message lent = *message;
    size_t place = shelf_records(lending->shelf);
    const char *why = NULL;
    bool right;

    if (lending->terms->mailbox.n && message->form == PLAIN_TEXT)
        why = route_add(&lent, lending->terms->mailbox, &store);
    level_shape(&lent, lending->terms->to.level, &store);
    right = shelf_add(lending->shelf, &lent);
    if (right)
        lending->unrouted[place] = why;
    bytes_free(&store);
    return right;
}

static void say_unrouted(const struct lending *lending)
{
    size_t place;

    for (place = 0; place < shelf_records(lending->shelf); place++) {
        if (lending->unrouted[place]) {
            char *shown = text_copy(shelf_bid(lending->shelf, place));
            say("message %lld of the base, BID %s, goes as it is, without our routing header: %s", lending->shelf->numbers[place], shown,
                lending->unrouted[place]);
            free(shown);
        }
    }
}

/* Its state for each partner: what isn't for one isn't offered to it. */
static bool add_states(struct lending *lending, struct message *message)
{
    size_t place;

    if (!forward_states(lending->base, message->number, message->states))
        return false;
    for (place = 0; place < FRINGEMOLE_PARTNERS; place++) {
        if (message->states[place] == FORWARD_NOT_FOR)
            message->states[place] = DECLINED;
    }
    return true;
}

static bool take_message(void *context, const struct message *message)
{
    struct lending *lending = context;
    struct message with_states = *message;
    const char *rule = message->copy ? TWIN : message_fault(message);

    rule = rule ? rule : level_fault(message);
    if (rule) {
        say_held(message->number, message->bid, rule);
        lending->bad[lending->count++] = message->number;
        return true;
    }
    return add_states(lending, &with_states) && put_on_shelf(lending, &with_states);
}

static bool take_bid(void *context, struct part bid)
{
    struct lending *lending = context;
    char *shown;

    if (!lending->judges_known || bid_is_right(bid))
        return shelf_know(lending->shelf, bid);
    shown = text_copy(bid);
    say("known to the base, but no BID, and left out: %s", shown);
    free(shown);
    return true;
}

static bool hold_bad(struct lending *lending)
{
    size_t i;

    if (!base_begin(lending->base))
        return false;
    for (i = 0; i < lending->count; i++) {
        if (!base_hold(lending->base, lending->bad[i])) {
            base_undo(lending->base);
            return false;
        }
    }
    return base_commit(lending->base);
}

/* Until all that is on the shelf is right, since others take the places of those that are held. */
static bool fill(struct lending *lending)
{
    const struct receiver *to = &lending->terms->to;

    do {
        if (lending->count && !hold_bad(lending))
            return false;
        lending->count = 0;
        shelf_clear(lending->shelf);
        shelf_start(lending->shelf, lending->terms->place, lending->terms->room);
        if (!base_waiting(lending->base, to, take_message, lending))
            return false;
    } while (lending->count);
    lending->shelf->level = to->level;
    return base_known(lending->base, to, take_bid, lending);
}

/* Each record by itself is right, and no two have one BID as the base sees it: one that the library refuses is a twin to the library. */
static void refuse_record(struct lending *lending, size_t place)
{
    long long number = lending->shelf->numbers[place];

    say_held(number, shelf_bid(lending->shelf, place), TWIN);
    lending->bad[lending->count++] = number;
}

bool lend(struct shelf *shelf, struct base *base, const struct lend_terms *terms)
{
    struct lending lending = { shelf, base, terms, { NULL }, { 0 }, 0, false };

    for (;;) {
        struct fringemole_reply opened;
        if (!fill(&lending))
            return false;
        opened = shelf_open(shelf, terms->role);
        if (opened.answer == FRINGEMOLE_OK) {
            if (!terms->again)
                say_unrouted(&lending);
            return true;
        }
        if (opened.place < shelf_records(shelf)) {
            refuse_record(&lending, opened.place);
        } else if (!lending.judges_known) {
            lending.judges_known = true;
        } else {
            say("the base holds what the library doesn't take (refusal 1)");
            return false;
        }
    }
}
