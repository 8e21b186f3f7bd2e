/* The library in one's own C program: a called station on standard input and output, with one message to send and room for eight. */
#include "fringemole.h"

#include <stdio.h>
#include <string.h>

#define PLACES 8  /* for messages that come in */
#define PARTNER 0 /* of eight: whose states the session reads and writes */

static uint8_t session[FRINGEMOLE_SESSION_SIZE], table[FRINGEMOLE_RECORD_SIZE], inbox[PLACES * FRINGEMOLE_ENTRY_SIZE],
    store[PLACES * FRINGEMOLE_MAX_BODY];
static const uint8_t titles[] = "Hello", bodies[] = "73 from the shelf.\r";

static void put(uint8_t *field, const char *text)
{
    field[0] = (uint8_t)strlen(text);
    memcpy(field + 1, text, field[0]);
}

/* States 0, form 0 and starts 0 are there already. */
static void fill_table(void)
{
    table[FRINGEMOLE_RECORD_TYPE] = 'P';
    put(table + FRINGEMOLE_RECORD_FROM, "N0DE");
    put(table + FRINGEMOLE_RECORD_AT, "F0FBB.TST.FRA.EU");
    put(table + FRINGEMOLE_RECORD_TO, "F0SYS");
    put(table + FRINGEMOLE_RECORD_BID, "1_N0DE");
    table[FRINGEMOLE_RECORD_SIZE_FIELD] = sizeof bodies - 1;
    table[FRINGEMOLE_RECORD_TITLE_LEN] = sizeof titles - 1;
    table[FRINGEMOLE_RECORD_BODY_LEN] = sizeof bodies - 1;
}

int main(void)
{
    struct fringemole_memory m = { session, sizeof session, table, sizeof table, titles, sizeof titles - 1, NULL, 0, bodies,
        sizeof bodies - 1, NULL, 0, inbox, sizeof inbox, store, sizeof store };
    struct fringemole_reply reply, given;
    uint8_t out[256], in;
    int i, byte;

    fill_table();
    reply = fringemole_open_in(&m, FRINGEMOLE_CALLED, PARTNER);
    for (;;) {
        while ((given = fringemole_give_in(&m, out, sizeof out, 0)).count > 0) /* what we have to say: after a refusal, why */
            fwrite(out, 1, given.count, stdout);
        fflush(stdout);
        if (fringemole_receive_in(&m, NULL, 0).answer != FRINGEMOLE_OK || (byte = getchar()) == EOF)
            break;
        in = (uint8_t)byte;
        reply = fringemole_receive_in(&m, &in, 1);
        /* A node saves here what has changed, states and kept messages, before it gives more. */
    }
    fprintf(stderr, "answer %u; our message's state is %u\n", reply.answer, table[FRINGEMOLE_RECORD_STATES + PARTNER]);
    for (i = 0; i < session[FRINGEMOLE_SESSION_KEPT]; i++) {
        const uint8_t *heading = inbox + i * FRINGEMOLE_ENTRY_SIZE + FRINGEMOLE_ENTRY_HEADING;
        fprintf(stderr, "kept: %.*s\n", heading[0], (const char *)heading + 1);
    }
    return reply.answer;
}
