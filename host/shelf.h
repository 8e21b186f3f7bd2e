/* The shelf of one session: the memory that is lent to the library, filled from the base (lend.h), and saved to it. */
#ifndef SHELF_H
#define SHELF_H

#include "base.h"
#include "fringemole.h"

struct shelf {
    struct fringemole_memory lent;
    struct bytes table, titles, names, bodies, known, inbox, store;
    uint8_t session[FRINGEMOLE_SESSION_SIZE];
    /* What the base has: which message a record is, its state, and how many messages of the inbox. */
    long long numbers[FRINGEMOLE_MAX_RECORDS];
    uint8_t states[FRINGEMOLE_MAX_RECORDS];
    size_t kept;
    uint8_t level;   /* for which packed texts are on it (level.h) */
    uint8_t partner; /* whose column of the table it is for */
};

/* Empty, for this partner, with this much room for bodies that come in. */
void shelf_start(struct shelf *shelf, uint8_t partner, size_t room);
/* False if there is no place, or the body is over 65,535 bytes. */
bool shelf_add(struct shelf *shelf, const struct message *message);
bool shelf_know(struct shelf *shelf, struct part bid);
/* Sets up lent memory, then opens. Add nothing after that. */
struct fringemole_reply shelf_open(struct shelf *shelf, uint8_t role);
/* Writes to the base what receive changed since the last time, in one transaction; none if nothing changed. */
bool shelf_save(struct shelf *shelf, struct base *base, const struct passage *passage);
/* The rows of what the partner deferred are told so. */
bool shelf_save_deferred(const struct shelf *shelf, struct base *base, const struct passage *passage);
/* How many records wait that the partner hasn't deferred. */
void shelf_unoffered(const struct shelf *shelf, size_t *plain, size_t *packed);
void shelf_clear(struct shelf *shelf);

/* A message that is kept; its fields lie on the shelf. */
struct message shelf_message(const struct shelf *shelf, size_t place);
size_t shelf_records(const struct shelf *shelf);
struct part shelf_bid(const struct shelf *shelf, size_t place);

#endif
