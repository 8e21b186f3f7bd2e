/* Fringemole: white pages, the WPROT mails that say where a callsign has its home mailbox, and the dates of the older ones. Proved; see
 * docs/PROOF.md. An archive of its own, libfringemole_pages.a (`.ci/archives fringemole_pages`); it needs neither a session nor another archive.
 *
 * Nothing is copied or kept: what is read is shown by its places in the lent mail. Every call answers and ends, whatever bytes are lent.
 * An empty buffer may be NULL with length 0.
 *
 * A mail is surveyed once; then its lines are handed out one at a time, in order. The survey goes along, so that a mail of a newer version,
 * which is left unread, gives no line at any place, and no call but the first has to look through the whole mail:
 *
 *     struct fringemole_pages pages = fringemole_pages_survey(mail, len);
 *     if (pages.unread)
 *         printf("version %u.%u: left unread\n", (unsigned)pages.version / 10, (unsigned)pages.version % 10);
 *     struct fringemole_page page = fringemole_pages_next(mail, len, pages, 0);
 *     for (; page.kind != FRINGEMOLE_PAGE_END; page = fringemole_pages_next(mail, len, pages, page.next))
 *         if (page.kind == FRINGEMOLE_PAGE_MEMBER)
 *             printf("%.*s\n", (int)(page.call.end - page.call.start), (const char *)mail + page.start + page.call.start);
 */
#ifndef FRINGEMOLE_PAGES_H
#define FRINGEMOLE_PAGES_H

#include <stddef.h>
#include <stdint.h>

#ifdef __cplusplus
extern "C" {
#endif

#define FRINGEMOLE_PAGES_VERSION 10          /* 1.0: a mail with a V record above it is left unread */
#define FRINGEMOLE_PAGES_MAX_FLAG 10         /* bytes of a flag */
#define FRINGEMOLE_PAGES_MAX_NUMBER 9999999999 /* 10 digits: a time stamp, hops */
#define FRINGEMOLE_PAGES_FIRST_SECONDS (-86400)   /* of 700101 */
#define FRINGEMOLE_PAGES_LAST_SECONDS 3155587200  /* of 691231 */
#define FRINGEMOLE_PAGES_END_SECONDS 3155760000   /* the year 2070 begins */

/* ---------------------------------------------------------------- a mail */

/* What a mail holds. */
struct fringemole_pages {
    size_t records;   /* its V and M records; 0 where it is left unread */
    size_t dropped;   /* its lines of another form; 0 where it is left unread */
    uint32_t version; /* the highest that a V record says, as two digits say it: 10 is 1.0; 0 where there is no V record */
    uint8_t unread;   /* 1: a V record is above FRINGEMOLE_PAGES_VERSION, and the whole mail is left unread; else 0 */
};

struct fringemole_pages fringemole_pages_survey(const uint8_t *mail, size_t mail_len);

enum { /* what a line is */
    FRINGEMOLE_PAGE_END = 0,     /* no more lines, or the mail is left unread */
    FRINGEMOLE_PAGE_VERSION = 1, /* a V record */
    FRINGEMOLE_PAGE_MEMBER = 2,  /* an M record */
    FRINGEMOLE_PAGE_SKIPPED = 3, /* a record with another flag */
    FRINGEMOLE_PAGE_DROPPED = 4  /* a line of another form */
};

enum { /* why a line is dropped: the first thing, from the left, that breaks its rule */
    FRINGEMOLE_PAGE_KEPT = 0,
    FRINGEMOLE_PAGE_NO_RECORD = 1,   /* not two hexadecimal digits, a space, a flag of 1 to 10 bytes, a space, data */
    FRINGEMOLE_PAGE_BAD_VERSION = 2, /* the data of V aren't two decimal digits */
    FRINGEMOLE_PAGE_BAD_CALL = 3,    /* the fields of M, in their order */
    FRINGEMOLE_PAGE_BAD_HOME = 4,
    FRINGEMOLE_PAGE_BAD_BID = 5,
    FRINGEMOLE_PAGE_BAD_STAMP = 6,
    FRINGEMOLE_PAGE_BAD_ORIGIN = 7,
    FRINGEMOLE_PAGE_BAD_HOPS = 8,
    FRINGEMOLE_PAGE_BAD_NAME = 9,    /* or no space follows its second quote */
    FRINGEMOLE_PAGE_BAD_ZIP = 10,
    FRINGEMOLE_PAGE_BAD_TOWN = 11    /* or something follows it */
};

/* A field of a line, from start up to, not including, end. Both count from the line's start: the bytes are at mail + page.start + start. */
struct fringemole_page_field {
    size_t start;
    size_t end;
};

/* A line. The two leading digits of a record are its first two bytes, at mail + start; they are not judged. Name and town are without quotes.
 * Whatever a kind doesn't have is 0: all but kind at the end. */
struct fringemole_page {
    size_t next;    /* where the next line is read, later than the place asked for */
    size_t start;   /* the line in the mail, from start .. */
    size_t end;     /* .. up to, not including, end; without its CR */
    struct fringemole_page_field call; /* these nine: an M record */
    struct fringemole_page_field home;
    struct fringemole_page_field bid;
    struct fringemole_page_field origin;
    struct fringemole_page_field name; /* perhaps empty */
    struct fringemole_page_field zip;
    struct fringemole_page_field town; /* perhaps empty */
    uint64_t stamp;   /* seconds */
    uint64_t hops;
    uint32_t version; /* a V record: 10 is 1.0 */
    uint8_t kind;
    uint8_t why;      /* a dropped line */
};

/* The line at a place of a mail: at 0 the first, then at next of the one before. pages: this mail's survey; where its unread isn't 0 no line is
 * given. A survey of another mail, like a place of another mail, is a slip of the host that no call can see; it stays within the mail. */
struct fringemole_page fringemole_pages_next(const uint8_t *mail, size_t mail_len, struct fringemole_pages pages, size_t at);

/* ---------------------------------------------------------------- dates of the older white pages */

enum { /* this reader's own numbers */
    FRINGEMOLE_PAGES_DONE = 0,
    FRINGEMOLE_PAGES_BAD_DATE = 1,
    FRINGEMOLE_PAGES_OUT_OF_RANGE = 2
};

/* The seconds from 1970-01-01 00:00 GMT; 0 with any other answer than FRINGEMOLE_PAGES_DONE. */
struct fringemole_page_seconds {
    int64_t seconds;
    uint8_t answer;
};

/* YYMMDD (years 70 to 99 are 19xx, the rest 20xx) as the seconds of that midnight GMT less one day: 990215 gives 918950400, 700101 -86400.
 * Answers FRINGEMOLE_PAGES_BAD_DATE where the bytes aren't six digits that say a date. */
struct fringemole_page_seconds fringemole_pages_seconds(const uint8_t *date, size_t date_len);

/* A date, the year in full, and its six digits YYMMDD; all 0 with any other answer than FRINGEMOLE_PAGES_DONE. */
struct fringemole_page_date {
    uint16_t year;
    uint8_t month;
    uint8_t day;
    uint8_t text[6];
    uint8_t answer;
};

/* The way back: the time of day is cut off and nothing is added, so 918950400 gives 990214. Answers FRINGEMOLE_PAGES_OUT_OF_RANGE below 0 and
 * from FRINGEMOLE_PAGES_END_SECONDS on. */
struct fringemole_page_date fringemole_pages_date(int64_t seconds);

#ifdef __cplusplus
}
#endif

#endif
