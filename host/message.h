/* A message: its fields as the sender spelled them, wherever they lie. */
#ifndef MESSAGE_H
#define MESSAGE_H

#include "bytes.h"
#include "fringemole.h"

/* The library's states, of a message for one partner, and one of the host's own: a held message is never lent. */
enum state { WAITING = FRINGEMOLE_WAITING, FORWARDED = FRINGEMOLE_FORWARDED, DECLINED = FRINGEMOLE_DECLINED, HELD };

enum form { PLAIN_TEXT = FRINGEMOLE_PLAIN_TEXT, PACKED_MESSAGE = FRINGEMOLE_PACKED_MESSAGE, PACKED_FILE = FRINGEMOLE_PACKED_FILE };

struct message {
    long long number; /* its row in the base, in order of arrival */
    uint8_t state;                       /* WAITING or HELD; what it is for each partner is told by forward.h .. */
    uint8_t states[FRINGEMOLE_PARTNERS]; /* .. and, of a message to be lent, here */
    uint8_t form, type;
    uint8_t level; /* of a packed text: 1 with check bytes in front (level.h) */
    struct part from, at, to, bid, title, name, body;
    uint32_t size; /* as announced in a proposal */
    long long copy; /* of the inbox: 0 the first of its BID, then 1, 2 ..; of what waits: 0 the first of its BID, else 1 */
    long long came; /* to the base, in seconds since 1970; 0 where nobody noted it */
    struct part first_bid; /* as the base's first message of this BID spells it, or empty: where nobody asks */
};

extern const char *const state_names[HELD + 1], *const form_names[PACKED_FILE + 1];

#endif
