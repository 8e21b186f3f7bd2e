/* The message base: one SQLite file.
 *
 *   outbox   one row a message that goes to partners; held or not; when it came
 *   passage  one row a message of the outbox and a partner that it is for, with its state; when it went, in which session
 *   forward  the partners, a place each, and `route`: which private mail is for whom (forward.h)
 *   inbox    one row a message that the library kept; when it came, from whom, in which session, and whether it is a copy of a BID
 *            that the base had already
 *   known    BIDs of all that ever was in one of them, for good; what was seen last has the greatest number
 *   home     home mailboxes by the white pages (home.h)
 *   partner  who may call (partner.h)
 *   session  one row a session (history.h)
 *   station  our callsign and the partner's, either may be empty
 *
 * Reading and short changes go on beside a session; a second session doesn't. What a commit has said is on the disk. Each function says
 * what is wrong, and answers false (or NULL) then. */
#ifndef BASE_H
#define BASE_H

#include "message.h"

struct base;

enum box { OUTBOX, INBOX };

/* READING works where nothing can be written, too; it sees the base as it is at its first question. */
enum base_use { READING, CHANGING };

/* In a file that isn't there, or is empty. */
bool base_make(const char *path, const char *call, const char *partner);
/* An older base is lifted to today's version first, at once and whole. */
struct base *base_open(const char *path, enum base_use use);
void base_close(struct base *base);
/* One session at a time: from here until base_close, or the end of the process, no other gets this. */
bool base_lock_session(struct base *base);

/* Add and keep stand within begin and commit; another change by itself is a transaction of its own. */
bool base_begin(struct base *base);
bool base_commit(struct base *base);
void base_undo(struct base *base);

/* In which session a message came or went: its number (history.h) and the partner's callsign. */
struct passage {
    long long session;
    struct part partner;
};

/* For whom it is, is told afterwards (forward.h); its number is given. */
bool base_add(struct base *base, const struct message *message, long long *number);
/* A message whose BID is known becomes a copy; one that isn't goes on to other partners by the rule. */
bool base_keep(struct base *base, const struct message *message, const struct passage *passage);
/* For the passage's partner alone. */
bool base_mark(struct base *base, long long number, enum state state, const struct passage *passage);
bool base_defer(struct base *base, long long number, const struct passage *passage);
bool base_hold(struct base *base, long long number);
/* A held message waits again; `found` tells whether there was one. */
bool base_release(struct base *base, struct part bid, bool *found);

/* Whether this BID is known; -1 if the base can't say. */
int base_knows(struct base *base, struct part bid);
/* How the base spells a BID that it knows, added to a store: as it is here, if it has that spelling too. */
bool base_spelling(struct base *base, struct part bid, struct bytes *spelling);
/* Whether just this message is in one of the boxes, its announced size, its state and the spelling of its BID aside; -1 if the base can't
 * say. */
int base_has(struct base *base, const struct message *message);
/* The number that the next message of the outbox gets. */
bool base_next(struct base *base, long long *number);
bool base_count_known(struct base *base, long long *count);

/* To whom something is lent: a partner, at a level. */
struct receiver {
    struct part partner;
    uint8_t level;
};

/* What waits for the receiver; and of that the packed texts that have no room for the check of the level. */
bool base_count_waiting(struct base *base, const struct receiver *to, long long *count);
bool base_count_too_long(struct base *base, const struct receiver *to, long long *count);
/* Our callsign, added to a store. */
bool base_call(struct base *base, struct bytes *call);

/* A function gets a row; its parts last until it returns. It answers whether to go on. */
typedef bool message_function(void *context, const struct message *message);
typedef bool bid_function(void *context, struct part bid);
bool base_each(struct base *base, enum box box, message_function *function, void *context);
/* Those of one BID, in whatever spelling. */
bool base_each_of(struct base *base, enum box box, struct part bid, message_function *function, void *context);
/* For one session: of what waits for the receiver the oldest, those behind that were deferred; and the known BIDs beside theirs that are
 * likeliest to come again, those of what waits for others among the first. */
bool base_waiting(struct base *base, const struct receiver *to, message_function *function, void *context);
bool base_known(struct base *base, const struct receiver *to, bid_function *function, void *context);

#endif
