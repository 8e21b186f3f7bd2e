/* Parts of the host that no command shows whole: callsigns, partners of a base, the line under way, blanks of an offset, levels of packed
 * texts, numbers in FS lines. Ends with 0, or says what is wrong. */
#include "call.h"
#include "fringemole.h"
#include "heard.h"
#include "level.h"
#include "offset.h"
#include "partner.h"
#include "rest.h"

#include <stdio.h>
#include <stdlib.h>
#include <string.h>

#define MUST(what) must(what, #what, __LINE__)

static void must(bool right, const char *what, int line)
{
    if (!right) {
        printf("units.c:%d: not so: %s\n", line, what);
        exit(1);
    }
}

static bool reads(const char *text, const char *as)
{
    struct call call;
    bool is = call_read(part_of(text), &call);

    return as ? is && !strcmp(call.text, as) : !is;
}

static void calls(void)
{
    MUST(reads("N0DE", "N0DE") && reads("f0abc-15", "F0ABC") && reads("9A1", "9A1") && reads("A0BCDE-0", "A0BCDE"));
    MUST(reads("", NULL) && reads("N0", NULL) && reads("NODE", NULL) && reads("123456", NULL) && reads("A0BCDEF", NULL));
    MUST(reads("N0DE-16", NULL) && reads("N0DE-", NULL) && reads("N0DE-1-1", NULL) && reads("N0DE-001", NULL) && reads("N0 DE", NULL));
}

static struct part some(const char *text, size_t n)
{
    struct part part = part_of(text);

    part.n = n;
    return part;
}

static bool count(void *counted, const struct partner *partner)
{
    MUST(partner->call.n == 5);
    ++*(int *)counted;
    return true;
}

/* A password is right only whole; a partner without one, and nobody's callsign, have no right password, the empty one included. */
static void partners(struct base *base)
{
    static const char longest[] = "0123456789012345678901234567890123456789012345678901234567890123x";
    struct partner found;
    int counted = 0;

    MUST(partner_set(base, part_of("F0ABC"), part_of("secret")) && partner_set(base, part_of("F0XYZ"), part_of("")));
    MUST(partner_find(base, part_of("F0ABC"), &found) == 1 && found.has_password && found.seen == 0);
    MUST(partner_find(base, part_of("F0XYZ"), &found) == 1 && !found.has_password);
    MUST(partner_find(base, part_of("f0abc"), &found) == 0 && partner_find(base, part_of(""), &found) == 0);
    MUST(partner_admits(base, part_of("F0ABC"), part_of("secret")) == 1);
    MUST(partner_admits(base, part_of("F0ABC"), part_of("secre")) == 0 && partner_admits(base, part_of("F0ABC"), part_of("secrets")) == 0);
    MUST(partner_admits(base, part_of("F0ABC"), part_of("Secret")) == 0 && partner_admits(base, part_of("F0ABC"), part_of("")) == 0);
    MUST(partner_admits(base, part_of("F0ABC"), some("secret\0", 7)) == 0 && partner_admits(base, part_of("F0ABC"), some(longest, 65)) == 0);
    MUST(partner_admits(base, part_of("F0XYZ"), part_of("")) == 0 && partner_admits(base, part_of("F0NOT"), part_of("")) == 0);
    MUST(partner_set(base, part_of("F0ABC"), some(longest, 64)) && partner_admits(base, part_of("F0ABC"), some(longest, 64)) == 1);
    MUST(partner_admits(base, part_of("F0ABC"), part_of("secret")) == 0 && partner_admits(base, part_of("F0ABC"), some(longest, 65)) == 0);
    MUST(partner_seen(base, part_of("F0ABC")) && partner_find(base, part_of("F0ABC"), &found) == 1 && found.seen > 0);
    MUST(partner_each(base, count, &counted) && counted == 2);
}

static void removed(struct base *base)
{
    struct partner partner;
    bool found;

    MUST(partner_remove(base, part_of("F0ABC"), &found) && found && partner_remove(base, part_of("F0ABC"), &found) && !found);
    MUST(partner_find(base, part_of("F0ABC"), &partner) == 0 && partner_find(base, part_of("F0XYZ"), &partner) == 1);
}

/* Of a line its last 256 bytes; a CR ends it, the byte after it begins the next. */
static void lines(void)
{
    struct heard heard;
    size_t n;

    memset(&heard, 0, sizeof heard);
    heard_add(&heard, part_of("[SID]\rFF\r"));
    MUST(part_is(heard_line(&heard), "FF\r"));
    heard_add(&heard, part_of("X"));
    MUST(part_is(heard_line(&heard), "X"));
    for (n = 1; n < 3000; n++) {
        MUST(heard_line(&heard).n == (n < HEARD_MOST ? n : HEARD_MOST) && heard_line(&heard).at[0] == (n <= HEARD_MOST ? 'X' : 'y'));
        heard_add(&heard, part_of("y"));
    }
}

/* Of every phase, place and byte, one is changed. */
static void offsets(void)
{
    uint8_t session[FRINGEMOLE_SESSION_SIZE];
    unsigned phase, place, byte;

    memset(session, ' ', sizeof session);
    for (phase = 0; phase < 256; phase++) {
        for (place = 0; place < 256; place++) {
            session[FRINGEMOLE_SESSION_PHASE] = (uint8_t)phase;
            session[FRINGEMOLE_SESSION_PLACE] = (uint8_t)place;
            MUST(offset_may_begin(session) == (phase == FRINGEMOLE_TRANSFER_PHASE));
            for (byte = 0; byte < 256; byte++) {
                bool digit = phase == FRINGEMOLE_TRANSFER_PHASE && place == FRINGEMOLE_OFFSET_PLACE && byte == ' ';
                MUST(offset_digit(session, (uint8_t)byte) == (digit ? '0' : byte));
            }
        }
    }
}

static struct message packed(const char *body, size_t n, uint8_t level)
{
    struct message message;

    memset(&message, 0, sizeof message);
    message.form = PACKED_MESSAGE;
    message.level = level;
    message.body = some(body, n);
    message.size = (uint32_t)n;
    return message;
}

/* The check of nine digits is a known one: 31C3. */
static void levels(void)
{
    static const char checked[] = "\xC3\x31" "123456789";
    struct message zero = packed(checked + 2, 9, 0), one = packed(checked, 11, 1), other;
    struct bytes store = { NULL, 0, 0 };

    MUST(!level_fault(&zero) && !level_fault(&one));
    other = zero;
    level_shape(&other, 1, &store);
    MUST(other.level == 1 && other.size == 11 && part_same(other.body, one.body));
    level_shape(&other, 1, &store);
    MUST(part_same(other.body, one.body));
    level_shape(&other, 0, &store);
    MUST(other.level == 0 && other.size == 9 && part_same(other.body, zero.body));
    zero.size = 4000;
    level_shape(&zero, 1, &store);
    MUST(zero.size == 4000 && zero.body.n == 11);
    one.form = PLAIN_TEXT;
    level_shape(&one, 0, &store);
    MUST(one.body.n == 11);
    other = packed(checked, 10, 1);
    MUST(level_fault(&other));
    other = packed("\0\0", 2, 1);
    MUST(!level_fault(&other));
    other = packed("\0", 1, 1);
    MUST(level_fault(&other));
    other = packed("\0\0", 2, 2);
    MUST(level_fault(&other));
    bytes_free(&store);
}

static void rests(void)
{
    static const char *const before[] = { "A1Y", "a1+", "!000001h", "YA9NN!0", "A1A000000", "A12A3Y", "A10LEY" };
    static const char *const no[] = { "", "Y", "YYYYY", "A1", "!999999", "YA1", "A0Y", "!000Y", "A1N", "A1R=LE-", "A1A2", "LY", "+-=" };
    size_t i;

    for (i = 0; i < sizeof before / sizeof *before; i++)
        MUST(rest_stands_before(part_of(before[i])));
    for (i = 0; i < sizeof no / sizeof *no; i++)
        MUST(!rest_stands_before(part_of(no[i])));
}

int main(int words, char **word)
{
    struct base *base = words == 2 ? base_open(word[1], CHANGING) : NULL;

    MUST(base != NULL);
    calls();
    levels();
    rests();
    partners(base);
    removed(base);
    lines();
    offsets();
    base_close(base);
    return 0;
}
