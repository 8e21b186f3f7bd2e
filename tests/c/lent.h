/* Lent memory for the C tests: every buffer is allocated on its own and just as large as it must be, so that valgrind sees any byte touched
 * outside it. */
#ifndef LENT_H
#define LENT_H

#include "fringemole.h"

#include <stdio.h>
#include <stdlib.h>
#include <string.h>

/* So many zero bytes; NULL for none, which the interface allows. */
static inline uint8_t *lend(size_t n)
{
    uint8_t *buffer = n == 0 ? NULL : calloc(n, 1);

    if (n != 0 && buffer == NULL) {
        puts("c: no memory");
        exit(2);
    }
    return buffer;
}

/* Session memory and an inbox; an empty table, no stores, no known BIDs. */
static inline struct fringemole_memory memory_with(size_t places, size_t room)
{
    struct fringemole_memory m;

    memset(&m, 0, sizeof m);
    m.session_len = FRINGEMOLE_SESSION_SIZE;
    m.session = lend(m.session_len);
    m.inbox_len = places * FRINGEMOLE_ENTRY_SIZE;
    m.inbox = lend(m.inbox_len);
    m.store_len = room;
    m.store = lend(m.store_len);
    return m;
}

static inline void take_back(struct fringemole_memory *m)
{
    free(m->session);
    free(m->table);
    free((void *)m->titles);
    free((void *)m->names);
    free((void *)m->bodies);
    free((void *)m->known);
    free(m->inbox);
    free(m->store);
}

static inline void put_field(uint8_t *entry, size_t at, const char *text)
{
    entry[at] = (uint8_t)strlen(text);
    memcpy(entry + at + 1, text, strlen(text));
}

static inline void put_number(uint8_t *entry, size_t at, size_t bytes, unsigned long value)
{
    size_t i;

    for (i = 0; i < bytes; i++) {
        entry[at + i] = (uint8_t)(value >> (8 * i));
    }
}

/* A record of this form and BID: title or name and body are the first bytes of their stores. */
static inline void put_record(uint8_t *record, uint8_t form, const char *bid, size_t heading, size_t body)
{
    record[FRINGEMOLE_RECORD_FORM] = form;
    record[FRINGEMOLE_RECORD_TYPE] = 'P';
    put_field(record, FRINGEMOLE_RECORD_FROM, "F6FBB");
    put_field(record, FRINGEMOLE_RECORD_AT, "FC1GHV");
    put_field(record, FRINGEMOLE_RECORD_TO, "FC1MVP");
    put_field(record, FRINGEMOLE_RECORD_BID, bid);
    put_number(record, FRINGEMOLE_RECORD_SIZE_FIELD, 4, body);
    put_number(record, form == FRINGEMOLE_PACKED_FILE ? FRINGEMOLE_RECORD_NAME_LEN : FRINGEMOLE_RECORD_TITLE_LEN, 1, heading);
    put_number(record, FRINGEMOLE_RECORD_BODY_LEN, 2, body);
}

#endif
