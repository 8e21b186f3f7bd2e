/* Fringemole: routing headers, the R: lines at the top of a message's body. Proved; see docs/PROOF.md. An archive of its own,
 * libfringemole_route.a (`.ci/archives fringemole_route`); it needs neither a session nor the other archive.
 *
 * Nothing is copied or kept: what is read is shown by its places in the lent body. Every call answers and ends, whatever bytes are lent.
 * An empty buffer may be NULL with length 0. The buffer that is written may not overlap those that are read.
 *
 * The way of a message, hop by hop from the top, the last one being where it began:
 *
 *     struct fringemole_hop hop = fringemole_route_next(body, len, 0);
 *     for (; hop.found; hop = fringemole_route_next(body, len, hop.next))
 *         printf("%04u-%02u-%02u %02u:%02u%s %lu@%.*s\n", hop.year, hop.month, hop.day, hop.hour, hop.minute, hop.gmt ? " GMT" : " ?",
 *                (unsigned long)hop.number, (int)(hop.end - hop.start), (const char *)body + hop.start);
 */
#ifndef FRINGEMOLE_ROUTE_H
#define FRINGEMOLE_ROUTE_H

#include <stddef.h>
#include <stdint.h>

#ifdef __cplusplus
extern "C" {
#endif

#define FRINGEMOLE_ROUTE_MAX_NUMBER 999999999
#define FRINGEMOLE_ROUTE_FIRST_YEAR 1970
#define FRINGEMOLE_ROUTE_LAST_YEAR 2069
#define FRINGEMOLE_ROUTE_MAX_MAILBOX 38 /* parts of 1 to 6 bytes joined by '.', as FRINGEMOLE_MAX_AT in fringemole.h */
#define FRINGEMOLE_ROUTE_MAX_LINE 64    /* the most bytes that our line has, its CR included */
#define FRINGEMOLE_ROUTE_MAX_TEXT 65535 /* our line and the body */

/* A header. found: 1, or 0 where the headers have ended, and then every number is 0. */
struct fringemole_hop {
    size_t next;     /* where the next header is read, later than the place asked for */
    size_t start;    /* the mailbox in the body, from start .. */
    size_t end;      /* .. up to, not including, end */
    uint32_t number; /* the message's number there */
    uint16_t year;   /* in full */
    uint8_t month;
    uint8_t day;
    uint8_t hour;
    uint8_t minute;
    uint8_t gmt;     /* 1: the time is in GMT; 0: its zone is unknown */
    uint8_t found;
};

/* The header at a place of a body: at 0 the first, then at next of the one before. The headers end at the first line that isn't one. */
struct fringemole_hop fringemole_route_next(const uint8_t *body, size_t body_len, size_t at);

/* The mailbox of the lowest header. found: 1, or 0 where the body begins with no header, and then both places are 0. */
struct fringemole_origin {
    size_t start;
    size_t end;
    uint8_t found;
};

struct fringemole_origin fringemole_route_origin(const uint8_t *body, size_t body_len);

enum { /* the writer's own numbers */
    FRINGEMOLE_ROUTE_WRITTEN = 0,
    FRINGEMOLE_ROUTE_BAD_FIELD = 1, /* a field or time outside the rules; nothing is written */
    FRINGEMOLE_ROUTE_NO_ROOM = 2    /* out is too short, or it were over FRINGEMOLE_ROUTE_MAX_TEXT bytes in all; nothing is written */
};

struct fringemole_added {
    size_t count;    /* bytes written at the start of out; 0 with any other answer than FRINGEMOLE_ROUTE_WRITTEN */
    uint8_t answer;
};

/* Our header, with CR, in front of a body, at the start of out; no byte of out behind it changes. The time is in GMT, the year in full. */
struct fringemole_added fringemole_route_add(uint8_t *out, size_t out_len,
    uint16_t year, uint8_t month, uint8_t day, uint8_t hour, uint8_t minute, uint32_t number,
    const uint8_t *mailbox, size_t mailbox_len, const uint8_t *body, size_t body_len);

#ifdef __cplusplus
}
#endif

#endif
