/* Partners: who may call. A row of the base each: callsign, password or none, when it was last there.
 *
 * Callsigns are looked up as call_read (call.h) gives them: capitals, without SSID. Each function says what is wrong with the base. */
#ifndef PARTNER_H
#define PARTNER_H

#include "base.h"

struct partner {
    struct part call;
    bool has_password;
    long long seen; /* seconds since 1970; 0: never */
};

#define PARTNER_MAX_PASSWORD 64

/* Adds it, or gives one that is there another password. A password of no bytes: none. */
bool partner_set(struct base *base, struct part call, struct part password);
/* `found` tells whether there was one. */
bool partner_remove(struct base *base, struct part call, bool *found);
/* 1 and what the row has, 0 if it is no partner, -1 if the base can't say. The callsign given is the one lent. */
int partner_find(struct base *base, struct part call, struct partner *partner);
/* 1 if it is a partner with just this password; 0 if it is none, has none, or another; -1 if the base can't say. What it does takes the
 * same time whichever bytes are wrong, and whether the callsign or the password is. */
int partner_admits(struct base *base, struct part call, struct part password);
/* It is there now. */
bool partner_seen(struct base *base, struct part call);

/* In order of callsigns; the callsign lasts until the function returns. It answers whether to go on. */
typedef bool partner_function(void *context, const struct partner *partner);
bool partner_each(struct base *base, partner_function *function, void *context);

#endif
