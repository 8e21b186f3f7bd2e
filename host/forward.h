/* Whom we forward to: one to eight partners by callsign, each with a column of the library's table (its place, 0 to 7), and for each message
 * of the outbox a state for each partner that it is for.
 *
 * The rule: a bulletin is for all of them; private mail for one, that of the route which fits its at-field best, or the first. A route is
 * parts of an at-field with dots between them, and fits where these stand next to each other; of several the longest does, and `*` fits
 * whatever no other does. A base without a partner has nobody in the first place, with an empty callsign: whoever comes first takes it over.
 *
 * Changes stand within begin and commit. Each function says what is wrong with the base, and answers false then. */
#ifndef FORWARD_H
#define FORWARD_H

#include "base.h"

#define FORWARD_NOT_FOR UINT8_MAX /* in place of a state: the message isn't for this partner */

/* The place of a partner. One that has none gets one, or there is none left, which is said. */
bool forward_join(struct base *base, struct part call, uint8_t *place);
/* Its place, or -1. */
bool forward_find(struct base *base, struct part call, long long *place);
/* Its place is free. What waited for it alone goes by the rule; of what it has the base remembers that. `found` is set if it had one. */
bool forward_leave(struct base *base, struct part call, bool *found);
/* How many there are; and, if it is one, its callsign is added to a store. */
bool forward_one(struct base *base, long long *count, struct bytes *call);

/* By the rule, to a message of the outbox that waits. */
bool forward_by_rule(struct base *base, long long number);
/* To these alone (callsigns with commas between them), but for what has gone already; `wrong` is the first that isn't a partner, or empty. */
bool forward_to(struct base *base, long long number, struct part calls, struct part *wrong);
/* Those of these callsigns that are partners have it already. */
bool forward_is_at(struct base *base, long long number, struct part calls);
/* A message of the inbox goes on: a bulletin to all but whom it came from, private mail where a route leads it, unless it has arrived. */
bool forward_pass_on(struct base *base, long long inbox, struct part came_from);

/* The states of a message, by places. */
bool forward_states(struct base *base, long long number, uint8_t states[FRINGEMOLE_PARTNERS]);
/* Callsigns of those who have a message, added to a store. */
bool forward_had_by(struct base *base, long long number, struct bytes *calls);

struct forward {
    uint8_t place;
    struct part call; /* empty: nobody */
    bool may_call, has_password;
    long long seen;    /* seconds since 1970; 0: never */
    long long waiting, bytes; /* messages, and the sum of their sizes as a session announces them */
};

/* In order of places; the callsign lasts until the function returns. It answers whether to go on. */
typedef bool forward_function(void *context, const struct forward *forward);
bool forward_each(struct base *base, forward_function *function, void *context);

/* ---- routes */

/* No callsign: there is no such route any more; `found` tells whether there was one. */
bool forward_set_route(struct base *base, struct part route, struct part call, bool *found);

typedef bool forward_route_function(void *context, struct part route, struct part call);
bool forward_each_route(struct base *base, forward_route_function *function, void *context);

#endif
