/* Somebody writes random bytes into session memory, table and inbox between the calls of random sessions. Every call must still answer, and
 * do no harm: what it answers, what it may write, and that what it leaves passes the form test. Exit status 1 at the first call that doesn't.
 *
 * changed [SESSIONS [SEED [FIRST]]]: the same seed gives the same sessions; a wrong one is repeated alone by its number. */
#define _POSIX_C_SOURCE 200112L

#include "lent.h"
#include "partner.h"
#include "tally.h"

#include <unistd.h>

#define BODY_ROOM 600
/* A session takes far fewer seconds, on however busy a machine. */
#define PATIENCE 60

static uint64_t seed = 0x46524E474D4F4C45u;
static unsigned long session_number, call_number;
static unsigned long calls, answers[FRINGEMOLE_LAST + 1];
/* Calls of receive without bytes. */
static unsigned long empties;
/* Calls of give on an ended session that gave bytes of the line that says why. */
static unsigned long reasons;
/* Calls of receive that changed the tally sheet: on memory as open left it, and on memory that somebody has written. */
static unsigned long counted[2];

static void must(int right, const char *what)
{
    if (!right) {
        printf("c: changed memory, session %lu, call %lu: %s\n", session_number, call_number, what);
        printf("c: repeat with: changed 1 0x%llx %lu\n", (unsigned long long)seed, session_number);
        exit(1);
    }
}

/* ---- a host's memory, and a copy to compare with */

/* Titles and names are printable, bodies hold no 0x1A. */
static uint8_t *text(size_t n)
{
    uint8_t *bytes = lend(n);

    memset(bytes, 'a' + (int)below(26), n);
    return bytes;
}

static void put_bid(uint8_t *entry, size_t at, const char *form, size_t place)
{
    char bid[FRINGEMOLE_MAX_BID + 1];

    snprintf(bid, sizeof bid, form, (unsigned)place);
    put_field(entry, at, bid);
}

static void fill_table(struct fringemole_memory *m)
{
    size_t i, records = once_in(32) ? FRINGEMOLE_MAX_RECORDS : below(8);
    uint8_t mode = (uint8_t)below(3);

    m->table_len = records * FRINGEMOLE_RECORD_SIZE;
    m->table = lend(m->table_len);
    m->titles = text(m->titles_len = FRINGEMOLE_MAX_HEADING);
    m->names = text(m->names_len = FRINGEMOLE_MAX_HEADING);
    m->bodies = text(m->bodies_len = BODY_ROOM);
    for (i = 0; i < records; i++) {
        uint8_t *record = m->table + i * FRINGEMOLE_RECORD_SIZE;
        uint8_t form = once_in(4) ? (uint8_t)below(3) : mode;
        size_t heading = 1 + below(FRINGEMOLE_MAX_HEADING), body = below(BODY_ROOM + 1);
        size_t partner;
        put_record(record, form, "", heading, body);
        for (partner = 0; partner < FRINGEMOLE_PARTNERS; partner++) {
            record[FRINGEMOLE_RECORD_STATES + partner] = once_in(3) ? (uint8_t)below(3) : FRINGEMOLE_WAITING;
        }
        put_bid(record, FRINGEMOLE_RECORD_BID, "%u_OURS", i);
    }
}

static void fill_known(struct fringemole_memory *m)
{
    size_t i, count = once_in(64) ? FRINGEMOLE_MAX_KNOWN : below(4);
    uint8_t *known = lend(count * FRINGEMOLE_KNOWN_SIZE);

    for (i = 0; i < count; i++) {
        put_bid(known + i * FRINGEMOLE_KNOWN_SIZE, FRINGEMOLE_KNOWN_BID, "%u_KNOWN", i);
    }
    m->known = known;
    m->known_len = count * FRINGEMOLE_KNOWN_SIZE;
}

static struct fringemole_memory random_memory(void)
{
    size_t places = once_in(32) ? FRINGEMOLE_MAX_MESSAGES : below(8), room = below(900);
    struct fringemole_memory m = memory_with(places, room);

    fill(m.session, m.session_len);
    fill(m.inbox, m.inbox_len);
    fill(m.store, m.store_len);
    fill_table(&m);
    fill_known(&m);
    return m;
}

/* The eight buffers as a call found them. */
struct before {
    uint8_t *bytes[8];
};

static void buffers_of(const struct fringemole_memory *m, const uint8_t *bytes[8], size_t sizes[8])
{
    const uint8_t *b[8] = { m->session, m->table, m->titles, m->names, m->bodies, m->known, m->inbox, m->store };
    size_t n[8] = { m->session_len, m->table_len, m->titles_len, m->names_len, m->bodies_len, m->known_len, m->inbox_len, m->store_len };

    memcpy(bytes, b, sizeof b);
    memcpy(sizes, n, sizeof n);
}

static struct before copy_of(const struct fringemole_memory *m)
{
    struct before copy;
    const uint8_t *bytes[8];
    size_t i, sizes[8];

    buffers_of(m, bytes, sizes);
    for (i = 0; i < 8; i++) {
        copy.bytes[i] = lend(sizes[i]);
        if (sizes[i] != 0) {
            memcpy(copy.bytes[i], bytes[i], sizes[i]);
        }
    }
    return copy;
}

static void forget(struct before *copy)
{
    size_t i;

    for (i = 0; i < 8; i++) {
        free(copy->bytes[i]);
    }
}

/* What a call may write: bits by the buffers' order; of the table, states of one partner only, and of session memory no free byte. */
#define SESSION_ONLY 0x01
#define TABLE 0x02
#define BY_RECEIVE 0xC3

static void free_bytes_stand(const struct fringemole_memory *m, const uint8_t *session)
{
    must(memcmp(m->session + PLACES_NUMBERS_END, session + PLACES_NUMBERS_END, PLACES_ARRAYS - PLACES_NUMBERS_END) == 0
            && memcmp(m->session + PLACES_ARRAYS_END, session + PLACES_ARRAYS_END, FRINGEMOLE_SESSION_SIZE - PLACES_ARRAYS_END) == 0,
        "a free byte of session memory changed");
}

static void only_changed(const struct fringemole_memory *m, const struct before *copy, unsigned may)
{
    const uint8_t *bytes[8];
    size_t i, j, sizes[8];

    buffers_of(m, bytes, sizes);
    for (i = 0; i < 8; i++) {
        if (!(may >> i & 1)) {
            must(sizes[i] == 0 || memcmp(bytes[i], copy->bytes[i], sizes[i]) == 0, "a byte changed that may not");
        }
    }
    free_bytes_stand(m, copy->bytes[0]);
    for (j = 0; may & TABLE && j < m->table_len; j++) { /* of the partner that session memory names, whoever wrote it there */
        size_t column = (size_t)FRINGEMOLE_RECORD_STATES + copy->bytes[0][FRINGEMOLE_SESSION_PARTNER];
        must(m->table[j] == copy->bytes[1][j] || j % FRINGEMOLE_RECORD_SIZE == column,
            "more than a state of the partner changed");
    }
}

/* ---- the calls, each held to what is true of it on any memory */

/* Nobody has written since open; since a call that didn't answer 1. */
static int untouched, intact;
/* A call ended the session or found it ended, and nobody has written since; then: what is left of the line that says why. */
static int over;
static const char *reason = "";

/* The line after this answer of receive. */
static const char *reason_after(unsigned answer)
{
    if (answer <= FRINGEMOLE_BAD_MEMORY || answer == FRINGEMOLE_BYTES_WAIT || answer == FRINGEMOLE_ENDED) {
        return "";
    }
    return answer == FRINGEMOLE_BAD_CHECKSUM ? "*** Checksum error\r" : "*** Protocol error\r";
}

/* The line that an ended session still has to give, by session memory. */
static const char *reason_left(const uint8_t *session)
{
    const char *line = session[PLACES_FIRST] == PHASE_PIECE_PROTOCOL_ERROR ? "*** Protocol error\r" : "*** Checksum error\r";

    return session[PLACES_FIRST] == PHASE_PIECE_NONE ? "" : line + session[PLACES_POS];
}

/* The front panel's numbers: right, until somebody writes. Then an event still takes from one of the sheet what it gives another, modulo 256, and
 * what waits stands, or is counted anew, as it is where records are marked. `still`: nothing may count. */
static void check_panel(const struct fringemole_memory *m, const struct before *copy, int still)
{
    const uint8_t *now = m->session, *then = copy->bytes[0];
    size_t whole = FRINGEMOLE_TALLY_UNSETTLED + 1 - FRINGEMOLE_TALLY_WAITING, waits = FRINGEMOLE_TALLY_PROPOSED - FRINGEMOLE_TALLY_WAITING;
    int same = memcmp(now + FRINGEMOLE_TALLY_WAITING, then + FRINGEMOLE_TALLY_WAITING, whole) == 0;
    int stands = memcmp(now + FRINGEMOLE_TALLY_WAITING, then + FRINGEMOLE_TALLY_WAITING, waits) == 0;
    int marked = m->table_len != 0 && memcmp(m->table, copy->bytes[1], m->table_len) != 0;

    must(same || !still, "a number of the front panel changed that may not");
    must(!untouched || (tally_adds_up(now) && tally_waits(m, now[FRINGEMOLE_SESSION_PARTNER])), "the front panel's numbers don't add up");
    must(tally_rest(now) == tally_rest(then), "the tally sheet got more or less than an event gives it");
    must((stands && !marked) || tally_waits(m, now[FRINGEMOLE_SESSION_PARTNER]), "what waits is neither as it was nor counted anew");
    counted[!untouched] += memcmp(now + FRINGEMOLE_TALLY_PROPOSED, then + FRINGEMOLE_TALLY_PROPOSED, whole - waits) != 0;
}

static void check_reply(struct fringemole_reply reply, size_t most)
{
    calls++;
    call_number++;
    must(reply.answer <= FRINGEMOLE_LAST, "no such answer");
    answers[reply.answer]++;
    must(reply.place == (reply.answer == FRINGEMOLE_BAD_MEMORY ? FRINGEMOLE_NO_RECORD : 0), "a wrong place");
    must(reply.count <= most, "more bytes than there are");
    must(reply.answer != FRINGEMOLE_BAD_MEMORY || !intact, "1 on memory as the last call left it");
    must((reply.answer != FRINGEMOLE_BAD_MEMORY && reply.answer != FRINGEMOLE_ENDED) || reply.count == 0, "a count with 1 or 12");
}

static void give(struct fringemole_memory *m, size_t room, size_t place)
{
    struct before copy = copy_of(m);
    uint8_t *buffer = lend(room);
    size_t i, most = place < room ? room - place : 0;
    struct fringemole_reply reply;

    if (room != 0) {
        memset(buffer, 0xA5, room);
    }
    reply = fringemole_give_in(m, buffer, room, place);
    check_reply(reply, most);
    must(reply.answer <= FRINGEMOLE_BAD_MEMORY, "give refused");
    if (over) {
        size_t left = strlen(reason);
        must(reply.count == (left < most ? left : most), "an ended session gives the rest of its line, as far as it fits, and no more");
        must(reply.count == 0 || memcmp(buffer + place, reason, reply.count) == 0, "another line on an ended session");
        reason += reply.count;
        reasons += reply.count > 0;
    }
    for (i = 0; i < room; i++) {
        must(buffer[i] == 0xA5 || (place <= i && i < place + reply.count), "give wrote outside its count");
    }
    /* "Give on an ended session writes nothing", once the line is taken: not into session memory either. */
    only_changed(m, &copy, reply.answer == FRINGEMOLE_BAD_MEMORY || most == 0 || (over && reply.count == 0) ? 0 : SESSION_ONLY);
    check_panel(m, &copy, 1);
    intact = reply.answer != FRINGEMOLE_BAD_MEMORY;
    free(buffer);
    forget(&copy);
}

/* Bytes from the link, in a buffer of their own. True if the session goes on. */
static int receive(struct fringemole_memory *m, const uint8_t *bytes, size_t n)
{
    struct before copy = copy_of(m);
    uint8_t *portion = lend(n);
    struct fringemole_reply reply;

    if (n != 0) {
        memcpy(portion, bytes, n);
    }
    reply = fringemole_receive_in(m, portion, n);
    check_reply(reply, n);
    must(!over || reply.answer == FRINGEMOLE_ENDED, "no 12 on an ended session");
    must(reply.answer <= FRINGEMOLE_BAD_MEMORY || reply.answer == FRINGEMOLE_ENDED || reply.count > 0, "a refusal without its byte");
    /* 12: "nothing consumed, nothing changed". "Receiving no bytes on a live session answers 0 and changes nothing." */
    only_changed(m, &copy, reply.answer == FRINGEMOLE_BAD_MEMORY || reply.answer == FRINGEMOLE_ENDED || n == 0 ? 0 : BY_RECEIVE);
    check_panel(m, &copy, reply.answer != FRINGEMOLE_OK && reply.count <= 1);
    intact = reply.answer != FRINGEMOLE_BAD_MEMORY;
    /* "Receive consumes every byte lent to it, unless it answers 1 or 12 or the session ends on the way". */
    over = reply.answer > FRINGEMOLE_BAD_MEMORY || (reply.answer == FRINGEMOLE_OK && reply.count < n);
    reason = over ? reason_left(m->session) : "";
    must(!over || reply.answer == FRINGEMOLE_ENDED || strcmp(reason, reason_after(reply.answer)) == 0, "not the line that says why");
    empties += n == 0;
    free(portion);
    forget(&copy);
    return reply.answer == FRINGEMOLE_OK && !over;
}

/* ---- what somebody writes */

static void scribble_number(uint8_t *session)
{
    static const uint8_t small[] = { 0, 0, 1, 2, 3, 4, 5, 6, 7, 63, 64, 80, 81, 255 };
    static const unsigned long large[] = { 0, 1, 2, 255, 256, 257, 65535, 65536, 0xFFFFFFFF };
    static const uint8_t wide[] = { PLACES_LINE_LENGTH, PLACES_LEFT, FRINGEMOLE_SESSION_BODY, PLACES_POS, PLACES_USED };
    unsigned long value = large[below(sizeof large / sizeof *large)];
    size_t at = wide[below(sizeof wide)], other = FRINGEMOLE_SESSION_PHASE + below(PLACES_SUM + 1 - FRINGEMOLE_SESSION_PHASE);

    if (once_in(3)) {
        put_number(session, at, at < FRINGEMOLE_SESSION_BODY ? 2 : 4, value);
    } else {
        session[once_in(16) ? PLACES_BLOCK_SUM + below(PLACES_NUMBERS_END - PLACES_BLOCK_SUM) : other] = small[below(sizeof small)];
    }
}

static void scribble(struct fringemole_memory *m)
{
    uint8_t *buffers[3] = { m->session, m->table, m->inbox };
    size_t sizes[3] = { m->session_len, m->table_len, m->inbox_len };
    size_t i = below(3);

    untouched = intact = over = 0;
    if (once_in(2)) {
        scribble_number(m->session);
    } else if (once_in(20)) {
        fill(buffers[i], sizes[i]);
    } else if (once_in(20)) {
        /* All but the mark and the sizes, which decide first. */
        fill(m->session + FRINGEMOLE_SESSION_PHASE, m->session_len - FRINGEMOLE_SESSION_PHASE);
    } else if (sizes[i] != 0) {
        fill(buffers[i] + below(sizes[i]), 1);
    }
}

/* ---- sessions */

/* The link takes what waits, and brings what the partner says. */
static void step(struct fringemole_memory *m)
{
    size_t done, portion = once_in(4) ? 1 : once_in(2) ? 1 + below(30) : sizeof said;
    int goes_on = 1;

    if (!once_in(20)) {
        size_t place = below(4);
        give(m, once_in(8) ? below(8) : 5000 + place, place);
    }
    if (once_in(3)) {
        receive(m, NULL, 0);
    }
    say_next(m->session);
    for (done = 0; goes_on && done < said_len; done += portion) {
        goes_on = receive(m, said + done, said_len - done < portion ? said_len - done : portion);
        /* What a call leaves passes the form test: this give may not answer 1. */
        give(m, 0, below(2));
    }
    if (over && once_in(2)) {
        give(m, below(30), below(3));
    }
}

/* A session that starts well, and then memory changes, at the latest after its end. */
static void play(void)
{
    struct fringemole_memory m = random_memory();
    struct before copy = copy_of(&m);
    struct fringemole_reply reply = fringemole_open_in(&m, (uint8_t)below(2), (uint8_t)below(FRINGEMOLE_PARTNERS));
    size_t quiet = below(12), changed = 5 + below(20);

    only_changed(&m, &copy, SESSION_ONLY);
    forget(&copy);
    must(reply.answer == FRINGEMOLE_OK && reply.place == 0 && reply.count == 0, "open refused good memory");
    must(tally_waits(&m, m.session[FRINGEMOLE_SESSION_PARTNER]) && tally_of(m.session).proposed == 0 && tally_adds_up(m.session),
        "open left other numbers for the front panel");
    untouched = intact = 1;
    over = 0;
    fresh = 0;
    for (; quiet > 0 && !over; quiet--) {
        step(&m);
    }
    for (; changed > 0; changed--) {
        if (!once_in(3)) {
            scribble(&m);
        }
        step(&m);
    }
    take_back(&m);
}

int main(int argc, char **argv)
{
    unsigned long i, sessions = argc > 1 ? strtoul(argv[1], NULL, 0) : 20000;
    unsigned long first;

    seed = argc > 2 ? strtoull(argv[2], NULL, 0) : seed;
    first = argc > 3 ? strtoul(argv[3], NULL, 0) : 0;
    for (session_number = first; session_number < first + sessions; session_number++) {
        alarm(PATIENCE);
        call_number = 0;
        stream = seed + session_number * 0xD1342543DE82EF95u;
        play();
    }
    printf("c: changed memory: seed 0x%llx, %lu sessions, %lu calls, %lu of them receive without bytes, %lu of them give why, %lu and %lu of them count; answers",
        (unsigned long long)seed, sessions, calls, empties, reasons, counted[0], counted[1]);
    for (i = 0; i <= FRINGEMOLE_LAST; i++) {
        printf(" %lu: %lu%s", i, answers[i], i < FRINGEMOLE_LAST ? "," : "\n");
    }
    for (i = 0; sessions >= 1000 && i <= FRINGEMOLE_LAST; i++) {
        if (answers[i] == 0 || reasons == 0 || counted[0] == 0 || counted[1] == 0) {
            puts("c: changed memory: a number, a line or a count never came");
            return 1;
        }
    }
    return 0;
}
