/* Random numbers that a seed repeats, and a partner that says what session memory awaits, at times something wrong. */
#ifndef PARTNER_H
#define PARTNER_H

#include "fringemole.h"
#include "places.h"

#include <stdint.h>
#include <stdio.h>
#include <string.h>

/* ---- random numbers (splitmix64) */

static uint64_t stream;

static uint64_t number(void)
{
    uint64_t z = stream += 0x9E3779B97F4A7C15u;

    z = (z ^ (z >> 30)) * 0xBF58476D1CE4E5B9u;
    z = (z ^ (z >> 27)) * 0x94D049BB133111EBu;
    return z ^ (z >> 31);
}

static size_t below(size_t limit)
{
    return (size_t)(number() % limit);
}

static int once_in(size_t times)
{
    return below(times) == 0;
}

static void fill(uint8_t *bytes, size_t n)
{
    size_t i;

    for (i = 0; i < n; i++) {
        bytes[i] = (uint8_t)number();
    }
}

/* ---- what the partner says */

static uint8_t said[2000];
static size_t said_len;
/* Numbers the partner's BIDs. */
static unsigned fresh;

static void say(const void *bytes, size_t n)
{
    memcpy(said + said_len, bytes, n);
    said_len += n;
}

static void say_text(const char *line)
{
    say(line, strlen(line));
}

/* The end of the block whose lines stand from a place on: bare, with its checksum, or with a wrong one. */
static void say_block_end(size_t from)
{
    uint8_t sum = 0;
    char line[8];

    for (; from < said_len; from++) {
        sum = (uint8_t)(sum + said[from]);
    }
    sum = (uint8_t)((once_in(8) ? 1 : 0) - sum);
    snprintf(line, sizeof line, once_in(2) ? "F> %02X\r" : "F> %02x\r", sum);
    say_text(once_in(2) ? "F>\r" : line);
}

static void say_block(int framed)
{
    size_t i, from = said_len, count = once_in(20) ? 6 * below(2) : 1 + below(5);

    for (i = 0; i < count; i++) {
        char line[80];
        const char *who = once_in(8) ? "OURS" : once_in(8) ? "KNOWN" : "T";
        unsigned bid = *who == 'T' ? ++fresh % 100000 : (unsigned)below(5), size = (unsigned)below(200);
        char letter = framed && once_in(2) ? 'A' : 'B';
        snprintf(line, sizeof line, "F%c P F6FBB FC1GHV.FRA ALL %u_%s %u\r", letter, bid, who, size);
        say_text(line);
    }
    say_block_end(from);
}

static void say_transfer(int framed)
{
    size_t i, n = once_in(8) ? below(600) : below(60);
    uint8_t sum = 0;

    say_text(framed ? "\x01\x05HI" : "HI\r");
    if (framed) {
        say("\0" "0\0", 3);
    }
    for (i = 0; i < n; i++) {
        uint8_t data = (uint8_t)('A' + i % 26);
        if (framed && i % 256 == 0) {
            uint8_t start[2] = { 2, (uint8_t)(n - i < 256 ? n - i : 0) };
            say(start, 2);
        }
        say(&data, 1);
        sum = (uint8_t)(sum + data);
    }
    sum = (uint8_t)-sum;
    say_text(framed ? "\x04" : "\x1A\r");
    if (framed) {
        say(&sum, 1);
    }
}

static void say_turn(int framed)
{
    static const char *const lines[] = { "FF\r", "FF\r", "FQ\r", "F>\r", "; hello \r\n", "FS +\r", "x\r" };

    if (once_in(3)) {
        say_text(lines[below(sizeof lines / sizeof *lines)]);
    } else {
        say_block(framed);
    }
}

/* An FS line by the level that stands in session memory, at times by the other. */
static void say_fs(uint8_t proposals, int level)
{
    static const char *const later[] = { "y", "H", "N", "r", "L", "e", "A0", "!000000", "a12", "!999999", "A", "A0000000" };
    size_t i, count = proposals < 5 ? proposals : 5;

    say_text("FS ");
    for (i = 0; i < count; i++) {
        if (level && once_in(2)) {
            say_text(later[once_in(16) ? below(12) : below(10)]);
        } else {
            say(&"++-="[below(4)], 1);
        }
    }
    say_text("\r");
}

static void say_next(const uint8_t *session)
{
    static const char *const sids[] = { "[TST-1-F$]\r", "[TST-1-BF$]\r\n", "[TST-1-B1FHM$]\r", "[A-F]\r", "[A-H]\r", "[A--H]\r" };
    int framed = session[PLACES_FRAMED] == 1;

    said_len = 0;
    if (session[FRINGEMOLE_SESSION_PHASE] <= FRINGEMOLE_LAST_SID_PHASE) {
        say_text(sids[once_in(4) ? below(6) : below(4)]);
    } else if (session[FRINGEMOLE_SESSION_PHASE] == PHASE_PROMPT) {
        say_text("welcome\r\n>\r");
    } else if (session[FRINGEMOLE_SESSION_PHASE] == FRINGEMOLE_ANSWER_PHASE) {
        say_fs(session[PLACES_OURS], once_in(16) ? !session[FRINGEMOLE_SESSION_LEVEL] : session[FRINGEMOLE_SESSION_LEVEL]);
    } else if (session[FRINGEMOLE_SESSION_PHASE] == FRINGEMOLE_TRANSFER_PHASE) {
        say_transfer(framed);
    } else {
        say_turn(framed);
    }
    if (once_in(60)) {
        memset(said, 'x', said_len = 257);
    }
    if (once_in(16)) {
        fill(said + below(said_len), 1);
    }
    if (once_in(16)) {
        said_len = below(said_len + 1);
    }
}

#endif
