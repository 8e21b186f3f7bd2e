/* How much stack each call uses, measured: a call runs on a stack of its own that is painted before and looked at afterwards, through
 * sessions that reach what the library does: SID, proposal and FS lines, messages kept, transfers given, refusals. Bytes are counted from
 * the calling C function down, pushed arguments included. Exit status 1 if a call uses more than its limit. */
#define _XOPEN_SOURCE 700

#include "lent.h"

#include <ucontext.h>

#define STACK 65536
#define PAINT 0xA5
#define OPEN_LIMIT 512
#define RECEIVE_LIMIT 2048
#define GIVE_LIMIT 1024

#define RECORDS 6
#define TITLE FRINGEMOLE_MAX_HEADING
#define BODY 300

static struct fringemole_memory m;

/* ---- one call on the painted stack */

static uint8_t painted[STACK];
static ucontext_t host, guest;
static volatile uint8_t *level;
/* The call: what it is lent beside the memory, and what it answers. */
static uint8_t role, *bytes;
static size_t n;
static struct fringemole_reply reply;

static void open_here(void)
{
    volatile uint8_t here = 0;

    level = &here;
    reply = fringemole_open_in(&m, role, FRINGEMOLE_PARTNERS - 1);
}

static void receive_here(void)
{
    volatile uint8_t here = 0;

    level = &here;
    reply = fringemole_receive_in(&m, bytes, n);
}

static void give_here(void)
{
    volatile uint8_t here = 0;

    level = &here;
    reply = fringemole_give_in(&m, bytes, n, 0);
}

static size_t used_by(void (*call)(void))
{
    size_t lowest = 0;

    memset(painted, PAINT, STACK);
    getcontext(&guest);
    guest.uc_stack.ss_sp = painted;
    guest.uc_stack.ss_size = STACK;
    guest.uc_link = &host;
    makecontext(&guest, call, 0);
    swapcontext(&host, &guest);
    while (lowest < STACK && painted[lowest] == PAINT) {
        lowest++;
    }
    return (size_t)(level - (painted + lowest));
}

/* ---- the most that was used */

struct most {
    const char *call;
    size_t limit;
    size_t bytes;
    unsigned calls;
};

static struct most opens = { "open", OPEN_LIMIT, 0, 0 }, receives = { "receive", RECEIVE_LIMIT, 0, 0 };
static struct most gives = { "give", GIVE_LIMIT, 0, 0 };

static void measure(struct most *most, void (*call)(void))
{
    size_t used = used_by(call);

    most->bytes = used > most->bytes ? used : most->bytes;
    most->calls++;
}

static void must(int right, const char *what)
{
    if (!right) {
        printf("c: stack: wrong: %s\n", what);
        exit(1);
    }
}

/* ---- sessions */

/* The partner says this, so many bytes a call; the last call answers so. */
static void hears(const char *said, size_t length, size_t portion, unsigned answer)
{
    size_t done;

    for (done = 0; done < length; done += n) {
        bytes = (uint8_t *)said + done;
        n = length - done < portion ? length - done : portion;
        measure(&receives, receive_here);
    }
    must(reply.answer == answer, said);
}

/* We say all that waits, so many bytes a call, and it begins so. */
static void says(size_t room, const char *start)
{
    uint8_t buffer[BODY];
    const char *left = start;

    do {
        bytes = buffer;
        n = room;
        measure(&gives, give_here);
        must(reply.count != 0 || *left == '\0', start);
        for (n = 0; n < reply.count && *left != '\0'; n++) {
            must((char)buffer[n] == *left++, start);
        }
    } while (reply.count != 0);
}

static void set_up(uint8_t form)
{
    size_t i;
    uint8_t *title = lend(TITLE), *body = lend(BODY);

    m = memory_with(RECORDS, RECORDS * BODY);
    m.table_len = RECORDS * FRINGEMOLE_RECORD_SIZE;
    m.table = lend(m.table_len);
    memset(title, 't', TITLE);
    memset(body, 'b', BODY);
    m.titles = m.names = title;
    m.titles_len = m.names_len = TITLE;
    m.bodies = body;
    m.bodies_len = BODY;
    for (i = 0; i < RECORDS; i++) {
        char bid[FRINGEMOLE_MAX_BID + 1];
        snprintf(bid, sizeof bid, "%u_OURS", (unsigned)i);
        put_record(m.table + i * FRINGEMOLE_RECORD_SIZE, form, bid, TITLE, BODY);
    }
}

/* Everything is lent but once; titles serve as names here. */
static void tear_down(void)
{
    m.names = NULL;
    take_back(&m);
}

#define HEARS(text) hears((text), sizeof(text) - 1, portion, FRINGEMOLE_OK)

/* Each side proposes; of ours three are accepted and sent, the partner's two are kept; then the partner is refused. */
static void exchange(uint8_t as, uint8_t form, size_t portion)
{
    const char *transfer = form == FRINGEMOLE_PLAIN_TEXT ? "HI\rAB\x1A\r" : "\x01\x05HI\x00\x30\x00\x02\x02" "AB\x04\x7D";
    size_t i, length = form == FRINGEMOLE_PLAIN_TEXT ? 7 : 13;

    set_up(form);
    role = as;
    measure(&opens, open_here);
    must(reply.answer == FRINGEMOLE_OK, "open refused");
    says(portion, as == FRINGEMOLE_CALLED ? "[NOD-1-B1FH$]\r>\r" : "");
    hears(form == FRINGEMOLE_PLAIN_TEXT ? "[TST-1-AFHM1$]\r" : "[TST-1-B1FHM$]\r", 15, portion, FRINGEMOLE_OK);
    if (as == FRINGEMOLE_CALLED) {
        HEARS("; hello\rFF\r");
    } else {
        HEARS("welcome\r>\r");
    }
    says(portion, as == FRINGEMOLE_CALLED ? "F" : "[NOD-1-B1FH$]\rF");
    HEARS("FS +++-=\r\n");
    says(portion, form == FRINGEMOLE_PLAIN_TEXT ? "t" : "\x01\x53t");
    HEARS("FB P F6FBB0 FC1GHV.FFPC.FRA.EU ALLALL 1_T 2\rFB B F6FBB FC1GHV ALL 2_T 2\rF>\r");
    says(portion, "FS ++\r");
    for (i = 0; i < 2; i++) {
        hears(transfer, length, portion, FRINGEMOLE_OK);
    }
    must(m.session[FRINGEMOLE_SESSION_KEPT] == 2, "two messages kept");
    says(portion, "F");
    hears("FS ++\r", 6, portion, FRINGEMOLE_BAD_ANSWER);
    hears("x", 1, portion, FRINGEMOLE_ENDED);
    says(portion, "*** Protocol error\r");
    tear_down();
}

int main(void)
{
    static const size_t portions[2] = { 1, BODY };
    const struct most *all[3] = { &opens, &receives, &gives };
    uint8_t as, form;
    size_t i;

    for (as = 0; as < 2; as++) {
        for (form = 0; form < 3; form++) {
            for (i = 0; i < 2; i++) {
                exchange(as, form, portions[i]);
            }
        }
    }
    for (i = 0; i < 3; i++) {
        printf("c: stack: %s: %lu bytes at most in %u calls\n", all[i]->call, (unsigned long)all[i]->bytes, all[i]->calls);
        must(all[i]->bytes <= all[i]->limit, "more than the limit");
    }
    return 0;
}
