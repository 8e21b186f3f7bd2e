/* Fringemole: one end of one FBB forwarding session, over memory that the host lends. Proved; see docs/PROOF.md.
 *
 * Three calls. Each is lent the same eight buffers; between an accepted open and the session's end nobody else may write them, and no byte
 * that a call may write may be lent twice. Every call answers, ends, and refuses by number, whatever bytes stand in any buffer.
 *
 * Which buffers a call may write:  open: session.  receive: session, table (the states of the session's partner, no others), inbox, store.
 * give: session, and its own buffer.
 * An empty buffer may be NULL with length 0. Numbers in memory are little end first; entries are bytes without padding.
 *
 * A host's loop, once open has answered FRINGEMOLE_OK:
 *  1. give, and send what it wrote, until it gives 0 bytes. Give all before you receive: a byte received while bytes wait is refused with
 *     FRINGEMOLE_BYTES_WAIT and ends the session.
 *  2. receive(NULL, 0): FRINGEMOLE_ENDED says that the session has ended. An end by FQ, the partner's or ours, is no refusal: the call
 *     that ends it answers FRINGEMOLE_OK.
 *  3. read bytes from the link and receive them, in whatever portions. Any answer but FRINGEMOLE_OK: save, give what waits (one line that
 *     tells the partner why, or nothing), then hang up.
 *  4. save what has changed, states in the table and messages kept in the inbox, before you give more.
 * If the link drops, save and stop; what stands in table and inbox is right at every moment. */
#ifndef FRINGEMOLE_H
#define FRINGEMOLE_H

#include <stddef.h>
#include <stdint.h>

#ifdef __cplusplus
extern "C" {
#endif

/* ---- sizes in bytes, and limits */
#define FRINGEMOLE_SESSION_SIZE 1024 /* session memory, exactly; no need to clear it before open */
#define FRINGEMOLE_RECORD_SIZE 96    /* a record of the table; 0 to 64 of them */
#define FRINGEMOLE_KNOWN_SIZE 13     /* a known BID; 0 to 1,024 of them */
#define FRINGEMOLE_ENTRY_SIZE 155    /* a message of the inbox; 0 to 64 places */
#define FRINGEMOLE_PARTNERS 8        /* partners 0 to 7, a column of the table each */
#define FRINGEMOLE_MAX_RECORDS 64
#define FRINGEMOLE_MAX_KNOWN 1024
#define FRINGEMOLE_MAX_MESSAGES 64

/* ---- fields: the most bytes of each, and which bytes. A field in an entry is one byte for its length, then its bytes; what stands after
 * them up to the field's end doesn't matter. Each has at least 1 byte, but for a body and the title or name that the form doesn't need. */
#define FRINGEMOLE_MAX_CALL 6        /* from and to: 0x21-0x7E without '@' and '.' */
#define FRINGEMOLE_MAX_AT 38         /* parts of 1 to 6 such bytes joined by '.', and at most .. */
#define FRINGEMOLE_MAX_AT_TAIL 31    /* .. so many bytes after the first '.' */
#define FRINGEMOLE_MAX_BID 12        /* 0x21-0xFF; no two records of a table have one BID; known BIDs may repeat */
#define FRINGEMOLE_MAX_HEADING 80    /* title or file name: 0x20-0xFF */
#define FRINGEMOLE_MAX_BODY 65535    /* any bytes; that of a plain text (form 0) without 0x1A */
#define FRINGEMOLE_MAX_SIZE 999999   /* announced size; it need not be the body's length */

enum { /* state of a record, for one partner */
    FRINGEMOLE_WAITING = 0,
    FRINGEMOLE_FORWARDED = 1,
    FRINGEMOLE_DECLINED = 2
};

enum { /* form of a record or a message */
    FRINGEMOLE_PLAIN_TEXT = 0,      /* needs a title */
    FRINGEMOLE_PACKED_MESSAGE = 1,  /* needs a title */
    FRINGEMOLE_PACKED_FILE = 2      /* needs a file name */
};

enum { /* our role */
    FRINGEMOLE_CALLED = 0,
    FRINGEMOLE_CALLER = 1
};

/* ---- a record of the table: offsets. Title, name and body are a start and a length in their stores; also an empty one starts within its
 * store or at its end (start 0 will do). The title or name that the form doesn't need is empty, or as the needed one must be. */
#define FRINGEMOLE_RECORD_STATES 0       /* one a partner, 8 bytes, partner 0 first: FRINGEMOLE_WAITING, _FORWARDED or _DECLINED; a session
                                          * proposes what waits for its partner, and changes that partner's bytes alone */
#define FRINGEMOLE_RECORD_FORM 8         /* FRINGEMOLE_PLAIN_TEXT, _PACKED_MESSAGE or _PACKED_FILE */
#define FRINGEMOLE_RECORD_TYPE 9         /* 'P' or 'B', a capital */
#define FRINGEMOLE_RECORD_FROM 10        /* length 1 to 6; bytes from 11 on */
#define FRINGEMOLE_RECORD_AT 17          /* length 1 to 38; bytes from 18 on */
#define FRINGEMOLE_RECORD_TO 56          /* length 1 to 6; bytes from 57 on */
#define FRINGEMOLE_RECORD_BID 63         /* length 1 to 12; bytes from 64 on */
#define FRINGEMOLE_RECORD_SIZE_FIELD 76  /* announced size, 4 bytes, 0 to 999,999 */
#define FRINGEMOLE_RECORD_TITLE 80       /* start in the title store, 4 bytes */
#define FRINGEMOLE_RECORD_TITLE_LEN 84   /* 1 byte, 0 to 80 */
#define FRINGEMOLE_RECORD_NAME 85        /* start in the name store, 4 bytes */
#define FRINGEMOLE_RECORD_NAME_LEN 89    /* 1 byte, 0 to 80 */
#define FRINGEMOLE_RECORD_BODY 90        /* start in the body store, 4 bytes */
#define FRINGEMOLE_RECORD_BODY_LEN 94    /* 2 bytes, 0 to 65,535 */

/* ---- a known BID: its length (1 to 12), then its bytes */
#define FRINGEMOLE_KNOWN_BID 0

/* ---- a message of the inbox: offsets. Places past the count are not touched. */
#define FRINGEMOLE_ENTRY_FORM 0
#define FRINGEMOLE_ENTRY_TYPE 1          /* a capital, 'P' or 'B' */
#define FRINGEMOLE_ENTRY_FROM 2          /* length; bytes from 3 on */
#define FRINGEMOLE_ENTRY_AT 9            /* length; bytes from 10 on */
#define FRINGEMOLE_ENTRY_TO 48           /* length; bytes from 49 on */
#define FRINGEMOLE_ENTRY_BID 55          /* length; bytes from 56 on */
#define FRINGEMOLE_ENTRY_HEADING 68      /* title or file name: length; bytes from 69 on */
#define FRINGEMOLE_ENTRY_BODY 149        /* start in the inbox store, 4 bytes */
#define FRINGEMOLE_ENTRY_BODY_LEN 153    /* 2 bytes */

/* ---- in session memory a host may read: */
#define FRINGEMOLE_SESSION_PHASE 60      /* what is awaited, 1 byte: up to FRINGEMOLE_LAST_SID_PHASE the partner's SID */
#define FRINGEMOLE_SESSION_PLACE 87      /* where FRINGEMOLE_TRANSFER_PHASE is awaited: what its next byte is, 1 byte; a digit of a framed offset, or
                                          * the 00 after the last of them, at FRINGEMOLE_OFFSET_PLACE and nowhere else */
#define FRINGEMOLE_SESSION_KEPT 66       /* how many messages of the inbox are kept, 1 byte; 0 after an accepted open */
#define FRINGEMOLE_SESSION_BODY 96       /* body bytes so far of the message that is coming in, 4 bytes */
#define FRINGEMOLE_SESSION_DEFERRED 160  /* a flag a record, 64 bytes: 1 if the partner has deferred it in this session */
#define FRINGEMOLE_SESSION_LEVEL 117     /* the level in force, 1 byte, once the partner's SID has come: 0 is level 0, any other number level 1 */
#define FRINGEMOLE_SESSION_PARTNER 118   /* the partner that open was told, 1 byte */
/* Bytes 129 to 159 and 920 to 1,023 of it are free: no call reads or writes them, but later versions will. */
#define FRINGEMOLE_LAST_SID_PHASE 1
#define FRINGEMOLE_ANSWER_PHASE 4        /* the partner's FS line */
#define FRINGEMOLE_TRANSFER_PHASE 5
#define FRINGEMOLE_OFFSET_PLACE 6

/* ---- and what a front panel shows, for the session's partner; right after an accepted open, every receive and every give. A refused byte
 * changes none of these numbers, FRINGEMOLE_BYTES_WAIT included, nor do give and the answers 1 and 12; a session that is over keeps them. */
#define FRINGEMOLE_TALLY_WAITING 119     /* records that wait (their state is FRINGEMOLE_WAITING), 1 byte: of any form, deferred ones too */
#define FRINGEMOLE_TALLY_SIZES 120       /* the sum of their announced sizes, 4 bytes */
/* The tally sheet of this session, 1 byte each, 0 after an accepted open. The first is always the sum of the other four. */
#define FRINGEMOLE_TALLY_PROPOSED 124    /* records proposed: from the received byte on that our block answers, before give hands it out */
#define FRINGEMOLE_TALLY_FORWARDED 125   /* of these: forwarded, by the partner's next whole turn after their transfer */
#define FRINGEMOLE_TALLY_DECLINED 126    /* declined by the partner's FS line */
#define FRINGEMOLE_TALLY_DEFERRED 127    /* deferred by it; they still wait */
#define FRINGEMOLE_TALLY_UNSETTLED 128   /* not settled yet: their FS line hasn't come, or they are accepted and not forwarded; they still wait */

/* ---- the numbers given back */
enum {
    FRINGEMOLE_OK = 0,              /* no refusal: the session goes on, or ended by FQ */
    FRINGEMOLE_BAD_MEMORY = 1,      /* open: bad table or buffers, place = first bad record, from 0, or FRINGEMOLE_NO_RECORD;
                                     * receive, give: memory is not as the last call left it; nothing changed */
    FRINGEMOLE_LINE_TOO_LONG = 2,   /* a 257th byte of a line came before CR */
    FRINGEMOLE_NOT_SID = 3,         /* the first line isn't a valid SID */
    FRINGEMOLE_NO_FORWARDING = 4,   /* the partner's SID has no F */
    FRINGEMOLE_NOT_ALLOWED = 5,     /* a turn line that isn't allowed here */
    FRINGEMOLE_PROPOSAL_COUNT = 6,  /* a sixth proposal, or F> with none */
    FRINGEMOLE_BAD_ANSWER = 7,      /* an FS line wrong in form or count */
    FRINGEMOLE_BAD_TRANSFER = 8,    /* a transfer wrong in header, title, offset or mark */
    FRINGEMOLE_BAD_CHECKSUM = 9,
    FRINGEMOLE_STORE_FULL = 10,     /* a body byte without room */
    FRINGEMOLE_BYTES_WAIT = 11,     /* a byte arrived while bytes wait for give */
    FRINGEMOLE_ENDED = 12,          /* receive on an ended session; nothing changed */
    FRINGEMOLE_WRONG_BLOCK_SUM = 13, /* F> HH, and the sum of the block's proposal lines plus HH isn't 0 modulo 256 */
    FRINGEMOLE_LAST = FRINGEMOLE_WRONG_BLOCK_SUM /* the greatest of these numbers, for arrays; later versions have greater ones */
};

/* The place with FRINGEMOLE_BAD_MEMORY where it is no record's: partner, role, sizes or known BIDs; from receive and give, always. */
#define FRINGEMOLE_NO_RECORD 255

/* answer: one of the numbers; place: 0, but with answer 1; count: bytes consumed by receive (a refused one included), or given by give;
 * from open always 0. */
struct fringemole_reply {
    uint8_t answer;
    uint8_t place;
    size_t count;
};

/* role: FRINGEMOLE_CALLED or FRINGEMOLE_CALLER; partner: 0 to 7, whose column of the table the session reads and marks. A refused open changes
 * no lent byte; an accepted one writes session memory only. It checks the partner first, then role, sizes and known BIDs, then the records in
 * order, with the states of all eight partners; of two with one BID the later is bad. */
struct fringemole_reply fringemole_open(uint8_t role, uint8_t partner,
    uint8_t *session, size_t session_len,
    const uint8_t *table, size_t table_len,
    const uint8_t *titles, size_t titles_len,
    const uint8_t *names, size_t names_len,
    const uint8_t *bodies, size_t bodies_len,
    const uint8_t *known, size_t known_len,
    const uint8_t *inbox, size_t inbox_len,
    const uint8_t *store, size_t store_len);

/* Bytes from the link. After any answer but 0 and 1 the session is over; after 0 it is if bytes are left over (FQ came), or if the next
 * receive(NULL, 0) says FRINGEMOLE_ENDED. After 2 to 10 and from 13 on give still hands over one line with its CR: "*** Checksum error" for
 * FRINGEMOLE_BAD_CHECKSUM, else "*** Protocol error"; bytes that arrive meanwhile get FRINGEMOLE_ENDED and change nothing. No bytes on a
 * live session: 0, and nothing changes. */
struct fringemole_reply fringemole_receive(
    uint8_t *session, size_t session_len,
    uint8_t *table, size_t table_len,
    const uint8_t *titles, size_t titles_len,
    const uint8_t *names, size_t names_len,
    const uint8_t *bodies, size_t bodies_len,
    const uint8_t *known, size_t known_len,
    uint8_t *inbox, size_t inbox_len,
    uint8_t *store, size_t store_len,
    const uint8_t *bytes, size_t bytes_len);

/* Bytes that the link will now take: as many as fit into buf from place on; they count as taken when give returns. 0 bytes: nothing waits,
 * or there is no room. */
struct fringemole_reply fringemole_give(
    uint8_t *session, size_t session_len,
    const uint8_t *table, size_t table_len,
    const uint8_t *titles, size_t titles_len,
    const uint8_t *names, size_t names_len,
    const uint8_t *bodies, size_t bodies_len,
    const uint8_t *known, size_t known_len,
    const uint8_t *inbox, size_t inbox_len,
    const uint8_t *store, size_t store_len,
    uint8_t *buf, size_t buf_len, size_t place);

/* ---- the same calls with the eight buffers in one struct */
struct fringemole_memory {
    uint8_t *session; size_t session_len;
    uint8_t *table; size_t table_len;
    const uint8_t *titles; size_t titles_len;
    const uint8_t *names; size_t names_len;
    const uint8_t *bodies; size_t bodies_len;
    const uint8_t *known; size_t known_len;
    uint8_t *inbox; size_t inbox_len;
    uint8_t *store; size_t store_len;
};

static inline struct fringemole_reply fringemole_open_in(const struct fringemole_memory *m, uint8_t role, uint8_t partner)
{
    return fringemole_open(role, partner, m->session, m->session_len, m->table, m->table_len, m->titles, m->titles_len, m->names, m->names_len,
        m->bodies, m->bodies_len, m->known, m->known_len, m->inbox, m->inbox_len, m->store, m->store_len);
}

static inline struct fringemole_reply fringemole_receive_in(const struct fringemole_memory *m, const uint8_t *bytes, size_t n)
{
    return fringemole_receive(m->session, m->session_len, m->table, m->table_len, m->titles, m->titles_len, m->names, m->names_len,
        m->bodies, m->bodies_len, m->known, m->known_len, m->inbox, m->inbox_len, m->store, m->store_len, bytes, n);
}

static inline struct fringemole_reply fringemole_give_in(const struct fringemole_memory *m, uint8_t *buf, size_t n, size_t place)
{
    return fringemole_give(m->session, m->session_len, m->table, m->table_len, m->titles, m->titles_len, m->names, m->names_len,
        m->bodies, m->bodies_len, m->known, m->known_len, m->inbox, m->inbox_len, m->store, m->store_len, buf, n, place);
}

#ifdef __cplusplus
}
#endif
#endif
