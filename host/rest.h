/* A mailbox at level 1 that has a part of a message, since the link dropped in its transfer, asks for the rest of it: `A1536` or `!1536` in the
 * place of its sign. By Q-6 that counts as deferred, so nothing goes for it; but the mailbox (LinFBB) takes the next transfer for that rest, and
 * has then one message's text under another's BID. So where an accepted message stands behind such a number, nothing may go at all. */
#ifndef REST_H
#define REST_H

#include "bytes.h"

/* What the partner says where an FS line is awaited at level 1. */
struct rest {
    struct bytes said;
    bool listens;
};

/* Bytes of the partner, before the library has them. */
void rest_hear(struct rest *rest, const uint8_t *session, struct part bytes);
/* Once the library has them: whether an FS line came in which an accepted message stands behind a number over 0. */
bool rest_is_asked(struct rest *rest, const uint8_t *session);
/* The signs of an FS line, which the library has taken. */
bool rest_stands_before(struct part signs);
void rest_free(struct rest *rest);

#endif
