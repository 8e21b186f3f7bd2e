/* What one session takes from the base, put on a shelf that the library has opened. */
#ifndef LEND_H
#define LEND_H

#include "shelf.h"

struct lend_terms {
    uint8_t role;
    struct receiver to;
    uint8_t place; /* the partner's */
    size_t room;
    struct part mailbox; /* of our routing header, or empty */
    bool again;          /* what can be said of the messages has been said */
};

/* In place of what the shelf has. What isn't for this partner isn't lent: its BID is known. Packed texts are lent in the form of the level. A
 * message that breaks a rule is named, held and left out; a known BID that is none is named and left out. False if
 * there is something that can't be left out, or the base fails; that is said. With a mailbox, plain messages are lent with our routing header
 * in front, and each that can't have it is named; the base keeps them as they are. */
bool lend(struct shelf *shelf, struct base *base, const struct lend_terms *terms);

#endif
