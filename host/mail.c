/* Rows of outbox and inbox, and what the base knows of our station. */
#include "bid.h"
#include "forward.h"
#include "known.h"
#include "statement.h"

#include <string.h>

#define FIELDS "form, type, \"from\", at, \"to\", bid, title, name, body, level"
#define MESSAGE_PLACES 10 /* what bind_message fills */

/* ---- changes */

static void bind_message(sqlite3_stmt *statement, const struct message *message)
{
    sqlite3_bind_int(statement, 1, message->form);
    sqlite3_bind_text(statement, 2, (const char *)&message->type, 1, SQLITE_STATIC);
    bind_part(statement, 3, message->from);
    bind_part(statement, 4, message->at);
    bind_part(statement, 5, message->to);
    bind_part(statement, 6, message->bid);
    bind_part(statement, 7, message->title);
    bind_part(statement, 8, message->name);
    bind_part(statement, 9, message->body);
    sqlite3_bind_int(statement, 10, message->level);
}

bool base_add(struct base *base, const struct message *message, long long *number)
{
    sqlite3_stmt *statement = base_prepare(base, "INSERT INTO outbox (" FIELDS ", state, size, came) VALUES (?,?,?,?,?,?,?,?,?,?, ?,?,?)");

    if (statement) {
        bind_message(statement, message);
        sqlite3_bind_int(statement, MESSAGE_PLACES + 1, message->state);
        sqlite3_bind_int64(statement, MESSAGE_PLACES + 2, message->size);
        sqlite3_bind_int64(statement, MESSAGE_PLACES + 3, base_now());
    }
    if (!base_finish(base, statement))
        return false;
    *number = sqlite3_last_insert_rowid(base->db);
    return known_add(base, message->bid, message->type);
}

/* Which copy of its BID a message that comes now is: 0 if the base has none. */
static bool next_copy(struct base *base, struct part bid, long long *copy)
{
    sqlite3_stmt *statement = base_prepare(base,
        "SELECT EXISTS (SELECT 1 FROM known WHERE " SAME_BID("bid", "?1") ")"
        " + coalesce((SELECT max(copy) FROM inbox WHERE " SAME_BID("bid", "?1") "), 0)");

    if (statement)
        bind_part(statement, 1, bid);
    return base_number(base, statement, copy);
}

bool base_keep(struct base *base, const struct message *message, const struct passage *passage)
{
    sqlite3_stmt *statement;
    long long copy = 0;

    if (!next_copy(base, message->bid, &copy))
        return false;
    statement = base_prepare(base, "INSERT INTO inbox (" FIELDS ", came, partner, session, copy) VALUES (?,?,?,?,?,?,?,?,?,?, ?,?,?,?)");
    if (statement) {
        bind_message(statement, message);
        sqlite3_bind_int64(statement, MESSAGE_PLACES + 1, base_now());
        bind_part(statement, MESSAGE_PLACES + 2, passage->partner);
        sqlite3_bind_int64(statement, MESSAGE_PLACES + 3, passage->session);
        sqlite3_bind_int64(statement, MESSAGE_PLACES + 4, copy);
    }
    return base_finish(base, statement) && (copy || forward_pass_on(base, sqlite3_last_insert_rowid(base->db), passage->partner))
        && known_add(base, message->bid, message->type);
}

bool base_mark(struct base *base, long long number, enum state state, const struct passage *passage)
{
    sqlite3_stmt *statement = base_prepare(base,
        "INSERT INTO passage (state, went, session, number, call) VALUES (?1, ?2, ?3, ?4, ?5)"
        " ON CONFLICT (number, call) DO UPDATE SET state = ?1, went = ?2, session = ?3");

    if (statement) {
        sqlite3_bind_int(statement, 1, state);
        sqlite3_bind_int64(statement, 2, base_now());
        sqlite3_bind_int64(statement, 3, passage->session);
        sqlite3_bind_int64(statement, 4, number);
        bind_part(statement, 5, passage->partner);
    }
    return base_finish(base, statement);
}

bool base_defer(struct base *base, long long number, const struct passage *passage)
{
    sqlite3_stmt *statement = base_prepare(base, "UPDATE passage SET deferred = ? WHERE number = ? AND call = ?");

    if (statement) {
        sqlite3_bind_int64(statement, 1, passage->session);
        sqlite3_bind_int64(statement, 2, number);
        bind_part(statement, 3, passage->partner);
    }
    return base_finish(base, statement);
}

bool base_hold(struct base *base, long long number)
{
    sqlite3_stmt *statement = base_prepare(base, "UPDATE outbox SET state = " SQL_HELD " WHERE number = ? AND state = " SQL_WAITING);

    if (statement)
        sqlite3_bind_int64(statement, 1, number);
    return base_finish(base, statement);
}

bool base_release(struct base *base, struct part bid, bool *found)
{
    sqlite3_stmt *statement = base_prepare(base, "UPDATE outbox SET state = " SQL_WAITING " WHERE state = " SQL_HELD " AND bid = ?");

    if (statement)
        bind_part(statement, 1, bid);
    if (!base_finish(base, statement))
        return false;
    *found = sqlite3_changes(base->db) > 0;
    return true;
}

/* ---- questions */

#define ALIKE \
    "form = ?1 AND type = ?2 AND \"from\" = ?3 AND at = ?4 AND \"to\" = ?5 AND " SAME_BID("bid", "?6") " AND title = ?7 AND name = ?8 AND body = ?9" \
    " AND (form = " SQL_PLAIN_TEXT " OR level = ?10)"

int base_has(struct base *base, const struct message *message)
{
    sqlite3_stmt *statement = base_prepare(base,
        "SELECT EXISTS (SELECT 1 FROM outbox WHERE " ALIKE ") OR EXISTS (SELECT 1 FROM inbox WHERE " ALIKE ")");
    long long has = 0;

    if (statement)
        bind_message(statement, message);
    return base_number(base, statement, &has) ? has > 0 : -1;
}

bool base_next(struct base *base, long long *number)
{
    const char *sql = "SELECT coalesce((SELECT seq FROM sqlite_sequence WHERE name = 'outbox'), 0) + 1";

    return base_number(base, base_prepare(base, sql), number);
}

bool base_count_waiting(struct base *base, const struct receiver *to, long long *count)
{
    sqlite3_stmt *statement = base_prepare(base, "SELECT count(*) FROM " WAITING_FOR);

    if (statement)
        bind_part(statement, 5, to->partner);
    return base_number(base, statement, count);
}

/* ---- rows */

/* A number that is none of those that a message can have becomes one that no message has. */
static uint8_t small_number(sqlite3_stmt *statement, int place)
{
    long long number = sqlite3_column_int64(statement, place);

    return number >= 0 && number < UINT8_MAX ? (uint8_t)number : UINT8_MAX;
}

static uint32_t size_number(sqlite3_stmt *statement, int place)
{
    long long number = sqlite3_column_int64(statement, place);

    return number >= 0 && number < UINT32_MAX ? (uint32_t)number : UINT32_MAX;
}

static struct message message_of(sqlite3_stmt *statement)
{
    struct message message;
    struct part type = column_part(statement, 5);

    memset(&message, 0, sizeof message);
    message.number = sqlite3_column_int64(statement, 0);
    message.state = small_number(statement, 1);
    message.size = size_number(statement, 2);
    message.copy = sqlite3_column_int64(statement, 3);
    message.form = small_number(statement, 4);
    message.type = type.n == 1 ? type.at[0] : 0;
    message.from = column_part(statement, 6);
    message.at = column_part(statement, 7);
    message.to = column_part(statement, 8);
    message.bid = column_part(statement, 9);
    message.title = column_part(statement, 10);
    message.name = column_part(statement, 11);
    message.body = column_part(statement, 12);
    message.level = small_number(statement, 13);
    message.came = sqlite3_column_int64(statement, 14);
    message.first_bid = column_part(statement, 15);
    return message;
}

struct taker {
    message_function *function;
    void *context;
};

static bool take_row(void *context, sqlite3_stmt *statement)
{
    struct taker *taker = context;
    struct message message = message_of(statement);

    return taker->function(taker->context, &message);
}

#define FIRST_BID(in, of) "(SELECT first.bid FROM " in " AS first WHERE " SAME_BID("first.bid", of) " ORDER BY first.number LIMIT 1)"
#define OUTBOX_ROWS "SELECT number, state, size, 0, " FIELDS ", came, " FIRST_BID("outbox", "outbox.bid") " FROM outbox"
#define INBOX_ROWS \
    "SELECT number, " SQL_WAITING ", length(body), copy, " FIELDS ", came," \
    " coalesce(" FIRST_BID("outbox", "inbox.bid") ", " FIRST_BID("inbox", "inbox.bid") ") FROM inbox"

bool base_each(struct base *base, enum box box, message_function *function, void *context)
{
    const char *sql = box == OUTBOX ? OUTBOX_ROWS " ORDER BY number" : INBOX_ROWS " ORDER BY number";
    struct taker taker = { function, context };

    return base_rows(base, base_prepare(base, sql), take_row, &taker);
}

bool base_each_of(struct base *base, enum box box, struct part bid, message_function *function, void *context)
{
    const char *of_bid = box == OUTBOX ? OUTBOX_ROWS " WHERE " SAME_BID("bid", "?1") " ORDER BY number"
                                       : INBOX_ROWS " WHERE " SAME_BID("bid", "?1") " ORDER BY number";
    sqlite3_stmt *statement = base_prepare(base, of_bid);
    struct taker taker = { function, context };

    if (statement)
        bind_part(statement, 1, bid);
    return base_rows(base, statement, take_row, &taker);
}

#define EARLIER_WAITS \
    "EXISTS (SELECT 1 FROM outbox AS first JOIN passage AS its ON its.number = first.number AND its.call = ?5" \
    " AND its.state = " SQL_WAITING \
    " WHERE " SAME_BID("first.bid", "outbox.bid") " AND first.number < outbox.number AND first.state = " SQL_WAITING ")"

bool base_waiting(struct base *base, const struct receiver *to, message_function *function, void *context)
{
    sqlite3_stmt *statement = base_prepare(base,
        "SELECT number, outbox.state, size, " EARLIER_WAITS ", " FIELDS ", came, NULL FROM passage JOIN outbox USING (number)"
        " WHERE passage.call = ?5 AND number IN " CHOSEN " ORDER BY passage.deferred, number");
    struct taker taker = { function, context };

    bind_chosen(statement, to);
    return base_rows(base, statement, take_row, &taker);
}

bool base_count_too_long(struct base *base, const struct receiver *to, long long *count)
{
    sqlite3_stmt *statement = base_prepare(base, "SELECT count(*) FROM " WAITING_FOR " AND NOT " FITS_LEVEL);

    bind_chosen(statement, to);
    return base_number(base, statement, count);
}

/* ---- our station */

bool base_set_station(struct base *base, struct part call, struct part partner)
{
    sqlite3_stmt *statement = base_prepare(base, "INSERT INTO station VALUES (?, ?)");

    if (statement) {
        bind_part(statement, 1, call);
        bind_part(statement, 2, partner);
    }
    return base_finish(base, statement);
}

static bool take_text(void *into, sqlite3_stmt *statement)
{
    struct part part = column_part(statement, 0);

    bytes_add(into, part.at, part.n);
    return true;
}

bool base_call(struct base *base, struct bytes *call)
{
    return base_rows(base, base_prepare(base, "SELECT call FROM station"), take_text, call);
}
