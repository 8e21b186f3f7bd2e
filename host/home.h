/* Home mailboxes, as white pages name them: rows of the base. None is ever changed or taken out; of a callsign's rows the newest answers. */
#ifndef HOME_H
#define HOME_H

#include "base.h"

#define HOPS_UNKNOWN (-1)

struct home {
    struct part call, mailbox, bid, origin, name, zip, town; /* as they were spelled */
    long long stamp; /* seconds since 1970; before it, perhaps, where an old date was converted */
    long long hops;  /* or HOPS_UNKNOWN */
    bool old;        /* of the old white pages, which have no BID, origin and hops */
    struct part source;
    bool inbox;      /* the source is the BID of a message of the inbox; else it is a file */
};

/* Whose records a callsign's are: its capitals without SSID, added to a store. A word that is no callsign is taken in capitals as it is. */
void home_station(struct part call, struct bytes *station);
/* Within begin and commit. A record that the base has already, byte for byte and from whatever source, stays as it is: `added` is false. */
bool home_add(struct base *base, const struct home *home, bool *added);
/* All records of a station. The first one answers: that with the newest stamp, of these the one with the fewest hops, of these the one that
 * was read last. */
typedef bool home_function(void *context, const struct home *home);
bool home_each(struct base *base, struct part station, home_function *function, void *context);

#endif
