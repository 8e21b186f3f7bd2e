/* What a front panel shows (02, Q-3): read from session memory by the header's macros, and counted in the table. */
#ifndef TALLY_H
#define TALLY_H

#include "fringemole.h"

struct tally {
    unsigned long waiting, sizes;
    unsigned proposed, forwarded, declined, deferred, unsettled;
};

static inline unsigned long get_number(const uint8_t *at, size_t bytes)
{
    unsigned long value = 0;

    while (bytes--) {
        value = value << 8 | at[bytes];
    }
    return value;
}

static inline struct tally tally_of(const uint8_t *session)
{
    struct tally tally;

    tally.waiting = session[FRINGEMOLE_TALLY_WAITING];
    tally.sizes = get_number(session + FRINGEMOLE_TALLY_SIZES, 4);
    tally.proposed = session[FRINGEMOLE_TALLY_PROPOSED];
    tally.forwarded = session[FRINGEMOLE_TALLY_FORWARDED];
    tally.declined = session[FRINGEMOLE_TALLY_DECLINED];
    tally.deferred = session[FRINGEMOLE_TALLY_DEFERRED];
    tally.unsettled = session[FRINGEMOLE_TALLY_UNSETTLED];
    return tally;
}

/* "the first is always the sum of the other four": 0; else how far it is off, modulo 256. */
static inline unsigned tally_rest(const uint8_t *session)
{
    struct tally t = tally_of(session);

    return (t.proposed - t.forwarded - t.declined - t.deferred - t.unsettled) & 0xFF;
}

static inline int tally_adds_up(const uint8_t *session)
{
    struct tally t = tally_of(session);

    return t.proposed == t.forwarded + t.declined + t.deferred + t.unsettled;
}

/* "how many records wait and the sum of their announced sizes" for a partner, in the table; sizes as four bytes hold them. */
static inline int tally_waits(const struct fringemole_memory *m, size_t partner)
{
    struct tally shown = tally_of(m->session);
    unsigned long waiting = 0, sizes = 0;
    size_t at;

    for (at = 0; at < m->table_len; at += FRINGEMOLE_RECORD_SIZE) {
        if (m->table[at + FRINGEMOLE_RECORD_STATES + partner] == FRINGEMOLE_WAITING) {
            waiting++;
            sizes += get_number(m->table + at + FRINGEMOLE_RECORD_SIZE_FIELD, 4);
        }
    }
    return shown.waiting == waiting && shown.sizes == (sizes & 0xFFFFFFFF);
}

#endif
