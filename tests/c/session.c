/* Plays sessions on the proved library from C, with nothing but its header: 01's whole session, then an exchange of plain messages and one of
 * framed messages, with us called and calling. After each step the front panel's numbers add up. One line a step; exit status 1 at the first
 * difference. */
#include "lent.h"
#include "tally.h"

#define PLACES 2
#define ROOM 8
#define TAKEN "1_THEM"

static unsigned steps;

/* ---- steps and their lines */

/* Bytes as a person reads them: CR and other control bytes as \xNN. */
static void show(const char *bytes, size_t n)
{
    size_t i;

    putchar('"');
    for (i = 0; i < n; i++) {
        unsigned char byte = (unsigned char)bytes[i];
        if (byte >= 0x20 && byte < 0x7F) {
            putchar(byte);
        } else {
            printf("\\x%02X", byte);
        }
    }
    putchar('"');
}

/* Ends a step's line; ends the program if the step went wrong. */
static void verdict(int right)
{
    steps++;
    printf(" %s\n", right ? "ok" : "WRONG");
    if (!right) {
        printf("c: step %u is wrong\n", steps);
        exit(1);
    }
}

static int is(struct fringemole_reply reply, unsigned answer, unsigned place, size_t count)
{
    if (reply.answer == answer && reply.place == place && reply.count == count) {
        return 1;
    }
    printf(" [answer %u, place %u, count %lu]", reply.answer, reply.place, (unsigned long)reply.count);
    return 0;
}

/* ---- lent memory */

/* One record of this form: title "HI", body "AB". */
static void one_record(struct fringemole_memory *m, uint8_t form)
{
    uint8_t *titles = lend(2), *bodies = lend(2);

    m->table_len = FRINGEMOLE_RECORD_SIZE;
    m->table = lend(m->table_len);
    put_record(m->table, form, "1_F6FBB", 2, 2);
    memcpy(titles, "HI", 2);
    memcpy(bodies, "AB", 2);
    m->titles = titles;
    m->titles_len = 2;
    m->bodies = bodies;
    m->bodies_len = 2;
}

static void put_known(struct fringemole_memory *m, const char *bid)
{
    uint8_t *known = lend(FRINGEMOLE_KNOWN_SIZE);

    put_field(known, FRINGEMOLE_KNOWN_BID, bid);
    m->known = known;
    m->known_len = FRINGEMOLE_KNOWN_SIZE;
}

/* ---- the three calls, as steps */

#define PARTNER 5 /* of these sessions */

/* On memory that open has accepted: what waits is what the table has, and proposed the sum of the other four. */
static int panel_adds_up(const struct fringemole_memory *m)
{
    return tally_adds_up(m->session) && tally_waits(m, m->session[FRINGEMOLE_SESSION_PARTNER]);
}

/* "all 0 when open accepts" */
static int is_fresh(const struct fringemole_memory *m)
{
    struct tally t = tally_of(m->session);

    return panel_adds_up(m) && t.proposed == 0;
}

static void opens_for(const struct fringemole_memory *m, uint8_t role, uint8_t partner, unsigned answer, unsigned place)
{
    printf("open, role %u, partner %u:", role, partner);
    verdict(is(fringemole_open_in(m, role, partner), answer, place, 0) && (answer != FRINGEMOLE_OK || is_fresh(m)));
}

static void opens(const struct fringemole_memory *m, uint8_t role, unsigned answer, unsigned place)
{
    opens_for(m, role, PARTNER, answer, place);
}

/* The record's state for the sessions' partner; for the others it waits. */
static int state_is(const struct fringemole_memory *m, unsigned state)
{
    size_t partner;
    int right = m->session[FRINGEMOLE_SESSION_PARTNER] == PARTNER;

    for (partner = 0; partner < FRINGEMOLE_PARTNERS; partner++) {
        right = right && m->table[FRINGEMOLE_RECORD_STATES + partner] == (partner == PARTNER ? state : FRINGEMOLE_WAITING);
    }
    return right;
}

/* The partner says n bytes, of which receive takes `count`. */
static void hears(const struct fringemole_memory *m, const char *bytes, size_t n, unsigned answer, size_t count)
{
    uint8_t *portion = lend(n);

    if (n != 0) {
        memcpy(portion, bytes, n);
    }
    printf("receive ");
    show(bytes, n);
    verdict(is(fringemole_receive_in(m, portion, n), answer, 0, count) && panel_adds_up(m));
    free(portion);
}

/* We say these bytes, in rooms of three, from the second byte of a buffer; then nothing more. */
static void says(const struct fringemole_memory *m, const char *bytes, size_t n)
{
    size_t done = 0;
    int right = 1;
    uint8_t *buffer = lend(4);

    printf("give    ");
    show(bytes, n);
    while (right && done < n) {
        size_t count = n - done < 3 ? n - done : 3;
        memset(buffer, 0xA5, 4);
        right = is(fringemole_give_in(m, buffer, 4, 1), FRINGEMOLE_OK, 0, count) && buffer[0] == 0xA5
            && memcmp(buffer + 1, bytes + done, count) == 0 && (count == 3 || buffer[1 + count] == 0xA5) && panel_adds_up(m);
        done += count;
    }
    right = right && is(fringemole_give_in(m, buffer, 4, 1), FRINGEMOLE_OK, 0, 0);
    verdict(right);
    free(buffer);
}

/* The bytes of a string constant and how many they are. */
#define BYTES(text) (text), (sizeof(text) - 1)
#define HEARS(m, text) hears((m), BYTES(text), FRINGEMOLE_OK, sizeof(text) - 1)
#define SAYS(m, text) says((m), BYTES(text))

static void stands(const char *what, int right)
{
    printf("%s:", what);
    verdict(right);
}

static int field_is(const uint8_t *entry, size_t at, const char *text)
{
    return entry[at] == strlen(text) && memcmp(entry + at + 1, text, strlen(text)) == 0;
}

/* The inbox holds one message of this form: title "HI", body "AB". */
static int one_message(const struct fringemole_memory *m, uint8_t form)
{
    const uint8_t *entry = m->inbox;
    static const uint8_t body[6] = { 0, 0, 0, 0, 2, 0 };

    return m->session[FRINGEMOLE_SESSION_KEPT] == 1 && entry[FRINGEMOLE_ENTRY_FORM] == form && entry[FRINGEMOLE_ENTRY_TYPE] == 'B'
        && field_is(entry, FRINGEMOLE_ENTRY_FROM, "FC1GHV") && field_is(entry, FRINGEMOLE_ENTRY_AT, "F6FBB.FRA")
        && field_is(entry, FRINGEMOLE_ENTRY_TO, "ALL") && field_is(entry, FRINGEMOLE_ENTRY_BID, TAKEN)
        && field_is(entry, FRINGEMOLE_ENTRY_HEADING, "HI") && memcmp(entry + FRINGEMOLE_ENTRY_BODY, body, 6) == 0
        && memcmp(m->store, "AB", 2) == 0;
}

/* ---- the sessions */

/* 01: "Whole session, called, empty table." */
static void whole_session(void)
{
    struct fringemole_memory m = memory_with(0, 0);

    puts("# 01's whole session");
    opens(&m, FRINGEMOLE_CALLED, FRINGEMOLE_OK, 0);
    SAYS(&m, "[NOD-1-B1FH$]\r>\r");
    HEARS(&m, "");
    HEARS(&m, "[TST-1-F$]\rFF\r");
    SAYS(&m, "FQ\r");
    hears(&m, BYTES(""), FRINGEMOLE_ENDED, 0);
    take_back(&m);
}

/* A message each way, plain, with us called. */
static void plain_exchange(void)
{
    struct fringemole_memory m = memory_with(PLACES, ROOM);

    puts("# plain messages, called");
    one_record(&m, FRINGEMOLE_PLAIN_TEXT);
    put_known(&m, "9_KNOWN");
    opens(&m, FRINGEMOLE_CALLED, FRINGEMOLE_OK, 0);
    SAYS(&m, "[NOD-1-B1FH$]\r>\r");
    HEARS(&m, "[TST-1-F$]\r\nFB B FC1GHV F6FBB.FRA ALL 1_THEM 2\r\nfb p A B C 9_KNOWN 2\rF>\r");
    SAYS(&m, "FS +-\r");
    HEARS(&m, "\nHI\rAB\x1A \r\n");
    stands("one plain message kept", one_message(&m, FRINGEMOLE_PLAIN_TEXT));
    SAYS(&m, "FB P F6FBB FC1GHV FC1MVP 1_F6FBB 2\rF>\r");
    HEARS(&m, "; hello\rFS +\r");
    SAYS(&m, "HI\rAB\x1A\r");
    stands("not forwarded yet", state_is(&m, FRINGEMOLE_WAITING));
    HEARS(&m, "FF\r");
    stands("forwarded", state_is(&m, FRINGEMOLE_FORWARDED));
    SAYS(&m, "FQ\r");
    hears(&m, BYTES("\n"), FRINGEMOLE_ENDED, 0);
    take_back(&m);
}

/* A message each way, framed, with us calling. */
static void framed_exchange(void)
{
    struct fringemole_memory m = memory_with(PLACES, ROOM);

    puts("# framed messages, calling");
    one_record(&m, FRINGEMOLE_PACKED_MESSAGE);
    opens(&m, FRINGEMOLE_CALLER, FRINGEMOLE_OK, 0);
    SAYS(&m, "");
    HEARS(&m, "[TST-1-B1F$]\rwelcome\r>\r");
    SAYS(&m, "[NOD-1-B1FH$]\rFA P F6FBB FC1GHV FC1MVP 1_F6FBB 2\rF>\r");
    HEARS(&m, "FS +\r");
    SAYS(&m, "\x01\x05HI\x00\x30\x00\x02\x02" "AB\x04\x7D");
    HEARS(&m, "FA B FC1GHV F6FBB.FRA ALL 1_THEM 2\rFB P A B C 2_THEM 99\rF>\r");
    stands("forwarded", state_is(&m, FRINGEMOLE_FORWARDED));
    SAYS(&m, "FS +=\r");
    HEARS(&m, "\x01\x05HI\x00\x30\x00\x02\x02" "AB\x04\x7D");
    stands("one packed message kept", one_message(&m, FRINGEMOLE_PACKED_MESSAGE));
    SAYS(&m, "FF\r");
    hears(&m, BYTES("FQ\r\n"), FRINGEMOLE_OK, 3);
    take_back(&m);
}

/* A block with its checksum, and one with another letter in a BID: the record that was sent is forwarded by the one and not by the other. */
static void block_sums(void)
{
    struct fringemole_memory m;
    int right;

    for (right = 0; right < 2; right++) {
        m = memory_with(PLACES, ROOM);
        puts(right ? "# a right checksum of a block" : "# a wrong checksum of a block");
        one_record(&m, FRINGEMOLE_PLAIN_TEXT);
        opens(&m, FRINGEMOLE_CALLER, FRINGEMOLE_OK, 0);
        HEARS(&m, "[TST-1-F$]\r>\r");
        SAYS(&m, "[NOD-1-B1FH$]\rFB P F6FBB FC1GHV FC1MVP 1_F6FBB 2\rF>\r");
        HEARS(&m, "FS +\r");
        SAYS(&m, "HI\rAB\x1A\r");
        /* The bytes of `FB P A B C 1_A 2` and its CR sum to 878; with 0x92 that is 1,024. */
        if (right) {
            HEARS(&m, "FB P A B C 1_A 2\r\nF> 92\r");
            SAYS(&m, "FS +\r");
        } else {
            hears(&m, BYTES("FB P A B C 1_B 2\r\nF> 92\rmore"), FRINGEMOLE_WRONG_BLOCK_SUM, 24);
            SAYS(&m, "*** Protocol error\r");
        }
        stands("forwarded by a valid turn alone", state_is(&m, right ? FRINGEMOLE_FORWARDED : FRINGEMOLE_WAITING));
        take_back(&m);
    }
}

/* 02, Q-1: after a refusal one line says why, whatever arrives meanwhile; then nothing more. */
static void reasons(void)
{
    struct fringemole_memory m = memory_with(PLACES, ROOM);
    uint8_t *buffer = lend(9);

    puts("# why, before hanging up");
    opens(&m, FRINGEMOLE_CALLED, FRINGEMOLE_OK, 0);
    SAYS(&m, "[NOD-1-B1FH$]\r>\r");
    HEARS(&m, "[TST-1-B1F$]\rFA B FC1GHV F6FBB.FRA ALL 1_THEM 2\rF>\r");
    SAYS(&m, "FS +\r");
    hears(&m, BYTES("\x01\x05HI\x00\x30\x00\x02\x02" "AB\x04\x7E" "more"), FRINGEMOLE_BAD_CHECKSUM, 13);
    hears(&m, BYTES(""), FRINGEMOLE_ENDED, 0);
    stands("its first nine bytes", is(fringemole_give_in(&m, buffer, 9, 0), FRINGEMOLE_OK, 0, 9) && memcmp(buffer, "*** Check", 9) == 0);
    hears(&m, BYTES("\n"), FRINGEMOLE_ENDED, 0);
    hears(&m, BYTES("FF\r"), FRINGEMOLE_ENDED, 0);
    SAYS(&m, "sum error\r");
    hears(&m, BYTES(""), FRINGEMOLE_ENDED, 0);
    opens(&m, FRINGEMOLE_CALLED, FRINGEMOLE_OK, 0);
    SAYS(&m, "[NOD-1-B1FH$]\r>\r");
    hears(&m, BYTES("hello\r"), FRINGEMOLE_NOT_SID, 6);
    opens(&m, FRINGEMOLE_CALLED, FRINGEMOLE_OK, 0);
    SAYS(&m, "[NOD-1-B1FH$]\r>\r");
    free(buffer);
    take_back(&m);
}

/* Refusals of each call. */
static void refusals(void)
{
    struct fringemole_memory m = memory_with(PLACES, ROOM);
    uint8_t buffer[2] = { 0xA5, 0xA5 };

    puts("# refusals");
    one_record(&m, FRINGEMOLE_PLAIN_TEXT);
    opens(&m, FRINGEMOLE_CALLER + 1, FRINGEMOLE_BAD_MEMORY, FRINGEMOLE_NO_RECORD);
    m.table[FRINGEMOLE_RECORD_TYPE] = 'T';
    opens(&m, FRINGEMOLE_CALLED, FRINGEMOLE_BAD_MEMORY, 0);
    m.table[FRINGEMOLE_RECORD_TYPE] = 'B';
    opens(&m, FRINGEMOLE_CALLED, FRINGEMOLE_OK, 0);
    m.store_len -= 1;
    stands("another size", is(fringemole_give_in(&m, buffer, 2, 0), FRINGEMOLE_BAD_MEMORY, FRINGEMOLE_NO_RECORD, 0));
    m.store_len += 1;
    stands("a place beyond the end", is(fringemole_give_in(&m, buffer, 2, 3), FRINGEMOLE_OK, 0, 0));
    stands("nothing written", buffer[0] == 0xA5 && buffer[1] == 0xA5);
    hears(&m, BYTES("[TST"), FRINGEMOLE_BYTES_WAIT, 1);
    SAYS(&m, "");
    hears(&m, BYTES("["), FRINGEMOLE_ENDED, 0);
    take_back(&m);
}

/* Partners 0 to 7, tested first; and a state of each column, whoever the session is with. */
static void partners(void)
{
    struct fringemole_memory m = memory_with(PLACES, ROOM);
    static const uint8_t columns[3] = { 0, PARTNER, FRINGEMOLE_PARTNERS - 1 };
    size_t i;

    puts("# partners");
    one_record(&m, FRINGEMOLE_PLAIN_TEXT);
    opens_for(&m, FRINGEMOLE_CALLED, 0, FRINGEMOLE_OK, 0);
    opens_for(&m, FRINGEMOLE_CALLED, FRINGEMOLE_PARTNERS - 1, FRINGEMOLE_OK, 0);
    opens_for(&m, FRINGEMOLE_CALLED, FRINGEMOLE_PARTNERS, FRINGEMOLE_BAD_MEMORY, FRINGEMOLE_NO_RECORD);
    opens_for(&m, FRINGEMOLE_CALLED, 255, FRINGEMOLE_BAD_MEMORY, FRINGEMOLE_NO_RECORD);
    for (i = 0; i < sizeof columns; i++) {
        m.table[FRINGEMOLE_RECORD_STATES + columns[i]] = FRINGEMOLE_DECLINED;
        opens(&m, FRINGEMOLE_CALLED, FRINGEMOLE_OK, 0);
        m.table[FRINGEMOLE_RECORD_STATES + columns[i]] = FRINGEMOLE_DECLINED + 1;
        opens(&m, FRINGEMOLE_CALLED, FRINGEMOLE_BAD_MEMORY, 0);
        opens_for(&m, FRINGEMOLE_CALLED, FRINGEMOLE_PARTNERS, FRINGEMOLE_BAD_MEMORY, FRINGEMOLE_NO_RECORD);
        m.table[FRINGEMOLE_RECORD_STATES + columns[i]] = FRINGEMOLE_WAITING;
    }
    opens(&m, FRINGEMOLE_CALLED, FRINGEMOLE_OK, 0);
    m.session[FRINGEMOLE_SESSION_PARTNER] = FRINGEMOLE_PARTNERS;
    stands("a partner that there isn't", is(fringemole_receive_in(&m, NULL, 0), FRINGEMOLE_BAD_MEMORY, FRINGEMOLE_NO_RECORD, 0));
    take_back(&m);
}

/* ---- the front panel */

/* Three plain records of 10, 20 and 30 bytes, as announced: title "HI", body "AB". */
static void three_records(struct fringemole_memory *m)
{
    static const char *const bids[3] = { "1_F6FBB", "2_F6FBB", "3_F6FBB" };
    size_t i;

    one_record(m, FRINGEMOLE_PLAIN_TEXT);
    free(m->table);
    m->table_len = 3 * FRINGEMOLE_RECORD_SIZE;
    m->table = lend(m->table_len);
    for (i = 0; i < 3; i++) {
        uint8_t *record = m->table + i * FRINGEMOLE_RECORD_SIZE;
        put_record(record, FRINGEMOLE_PLAIN_TEXT, bids[i], 2, 2);
        put_number(record, FRINGEMOLE_RECORD_SIZE_FIELD, 4, 10 * (i + 1));
    }
}

/* "2 waiting, 50 bytes; 3 proposed, 0 forwarded, 1 declined, 1 deferred, 1 not settled" */
static void shows(const struct fringemole_memory *m, const char *numbers)
{
    struct tally t = tally_of(m->session);
    char line[120];

    snprintf(line, sizeof line, "%lu waiting, %lu bytes; %u proposed, %u forwarded, %u declined, %u deferred, %u not settled", t.waiting, t.sizes,
        t.proposed, t.forwarded, t.declined, t.deferred, t.unsettled);
    printf("the panel shows %s:", line);
    verdict(strcmp(line, numbers) == 0);
}

/* Our three records are proposed to a caller. */
static struct fringemole_memory proposed(void)
{
    struct fringemole_memory m = memory_with(PLACES, ROOM);

    three_records(&m);
    opens(&m, FRINGEMOLE_CALLED, FRINGEMOLE_OK, 0);
    shows(&m, "3 waiting, 60 bytes; 0 proposed, 0 forwarded, 0 declined, 0 deferred, 0 not settled");
    SAYS(&m, "[NOD-1-B1FH$]\r>\r");
    HEARS(&m, "[TST-1-F$]\rFF");
    shows(&m, "3 waiting, 60 bytes; 0 proposed, 0 forwarded, 0 declined, 0 deferred, 0 not settled");
    HEARS(&m, "\r");
    shows(&m, "3 waiting, 60 bytes; 3 proposed, 0 forwarded, 0 declined, 0 deferred, 3 not settled");
    return m;
}

/* And answered: one is declined, one accepted, one deferred. */
static struct fringemole_memory answered(void)
{
    struct fringemole_memory m = proposed();

    SAYS(&m, "FB P F6FBB FC1GHV FC1MVP 1_F6FBB 10\rFB P F6FBB FC1GHV FC1MVP 2_F6FBB 20\rFB P F6FBB FC1GHV FC1MVP 3_F6FBB 30\rF>\r");
    HEARS(&m, "FS -+=\r");
    shows(&m, "2 waiting, 50 bytes; 3 proposed, 0 forwarded, 1 declined, 1 deferred, 1 not settled");
    return m;
}

static void front_panel(void)
{
    struct fringemole_memory m = answered();
    uint8_t buffer[6];

    puts("# the front panel, to the end");
    SAYS(&m, "HI\rAB\x1A\r");
    shows(&m, "2 waiting, 50 bytes; 3 proposed, 0 forwarded, 1 declined, 1 deferred, 1 not settled");
    HEARS(&m, "FF\r");
    shows(&m, "1 waiting, 30 bytes; 3 proposed, 1 forwarded, 1 declined, 1 deferred, 0 not settled");
    SAYS(&m, "FQ\r");
    shows(&m, "1 waiting, 30 bytes; 3 proposed, 1 forwarded, 1 declined, 1 deferred, 0 not settled");
    opens(&m, FRINGEMOLE_CALLER, FRINGEMOLE_OK, 0);
    shows(&m, "1 waiting, 30 bytes; 0 proposed, 0 forwarded, 0 declined, 0 deferred, 0 not settled");
    take_back(&m);
    puts("# the front panel, a byte before the transfer's last is taken");
    m = answered();
    stands("all but a byte", is(fringemole_give_in(&m, buffer, 6, 0), FRINGEMOLE_OK, 0, 6));
    hears(&m, BYTES("F"), FRINGEMOLE_BYTES_WAIT, 1);
    shows(&m, "2 waiting, 50 bytes; 3 proposed, 0 forwarded, 1 declined, 1 deferred, 1 not settled");
    take_back(&m);
    puts("# the front panel, a byte before our turn is taken");
    m = proposed();
    hears(&m, BYTES("F"), FRINGEMOLE_BYTES_WAIT, 1);
    hears(&m, BYTES("F"), FRINGEMOLE_ENDED, 0);
    shows(&m, "3 waiting, 60 bytes; 3 proposed, 0 forwarded, 0 declined, 0 deferred, 3 not settled");
    opens(&m, FRINGEMOLE_CALLER + 1, FRINGEMOLE_BAD_MEMORY, FRINGEMOLE_NO_RECORD);
    shows(&m, "3 waiting, 60 bytes; 3 proposed, 0 forwarded, 0 declined, 0 deferred, 3 not settled");
    take_back(&m);
}

int main(void)
{
    whole_session();
    plain_exchange();
    framed_exchange();
    block_sums();
    reasons();
    refusals();
    partners();
    front_panel();
    printf("c: %u steps, 0 wrong\n", steps);
    return 0;
}
