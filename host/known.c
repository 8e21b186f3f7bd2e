#include "known.h"
#include "bid.h"
#include "level.h"
#include "statement.h"

/* A bulletin comes by many ways, as long as mailboxes keep it; a personal message has one way, and comes again only from a partner that
 * didn't hear us. So it counts as if so many BIDs more had been seen since. Not as so much older: a node's clock may be wrong. */
#define PERSONAL_BEHIND (FRINGEMOLE_MAX_KNOWN / 2)

/* What each partner sent in the last session in which it sent something: it sends just that again if it didn't hear us. */
#define JUST_CAME "(SELECT " BID_TEXT("bid") " FROM inbox WHERE session IN (SELECT max(session) FROM inbox GROUP BY partner))"

/* What waits for whomever: of what isn't on the shelf a partner must not bring us another copy. */
#define WAITS "(SELECT " BID_TEXT("bid") " FROM outbox WHERE number IN (SELECT number FROM passage WHERE state = " SQL_WAITING "))"

/* Of twins that an older base has (bid.h) one stands for all: that which was seen last. */
#define SEEN_SINCE "EXISTS (SELECT 1 FROM known AS later WHERE " SAME_BID("later.bid", "known.bid") " AND later.number > known.number)"

static bool see_again(struct base *base, struct part bid)
{
    sqlite3_stmt *statement = base_prepare(base,
        "UPDATE known SET seen = ?2, number = (SELECT max(number) FROM known) + 1"
        " WHERE number = (SELECT max(number) FROM known WHERE " SAME_BID("bid", "?1") ")");

    if (statement) {
        bind_part(statement, 1, bid);
        sqlite3_bind_int64(statement, 2, base_now());
    }
    return base_finish(base, statement);
}

bool known_add(struct base *base, struct part bid, uint8_t type)
{
    sqlite3_stmt *statement;
    int known = base_knows(base, bid);

    if (known)
        return known > 0 && see_again(base, bid);
    statement = base_prepare(base, "INSERT INTO known (bid, type, seen) VALUES (?, ?, ?)");
    if (statement) {
        bind_part(statement, 1, bid);
        sqlite3_bind_text(statement, 2, (const char *)&type, 1, SQLITE_STATIC);
        sqlite3_bind_int64(statement, 3, base_now());
    }
    return base_finish(base, statement);
}

int base_knows(struct base *base, struct part bid)
{
    sqlite3_stmt *statement = base_prepare(base, "SELECT EXISTS (SELECT 1 FROM known WHERE " SAME_BID("bid", "?1") ")");
    long long known = 0;

    if (statement)
        bind_part(statement, 1, bid);
    return base_number(base, statement, &known) ? known > 0 : -1;
}

static bool take_spelling(void *into, sqlite3_stmt *statement)
{
    struct part part = column_part(statement, 0);

    bytes_add(into, part.at, part.n);
    return true;
}

bool base_spelling(struct base *base, struct part bid, struct bytes *spelling)
{
    sqlite3_stmt *statement = base_prepare(base,
        "SELECT bid FROM known WHERE " SAME_BID("bid", "?1") " ORDER BY bid = ?1 DESC, number LIMIT 1");

    if (statement)
        bind_part(statement, 1, bid);
    return base_rows(base, statement, take_spelling, spelling);
}

bool base_count_known(struct base *base, long long *count)
{
    return base_number(base, base_prepare(base, "SELECT count(DISTINCT " BID_KEY("bid") ") FROM known"), count);
}

struct taker {
    bid_function *function;
    void *context;
};

static bool take_row(void *context, sqlite3_stmt *statement)
{
    struct taker *taker = context;

    return taker->function(taker->context, column_part(statement, 0));
}

/* Bodies from this length on are too long for the level; one that is too long for any isn't this rule's matter. */
void bind_chosen(sqlite3_stmt *statement, const struct receiver *to)
{
    if (statement) {
        sqlite3_bind_int(statement, 1, FRINGEMOLE_MAX_RECORDS);
        sqlite3_bind_int(statement, 4, FRINGEMOLE_MAX_BODY + 1 - (to->level ? LEVEL_CHECK : 0));
        bind_part(statement, 5, to->partner);
    }
}

bool base_known(struct base *base, const struct receiver *to, bid_function *function, void *context)
{
    sqlite3_stmt *statement = base_prepare(base,
        "SELECT bid FROM known WHERE " BID_KEY("bid") " NOT IN (SELECT " BID_TEXT("bid") " FROM outbox WHERE number IN " CHOSEN ")"
        " AND NOT " SEEN_SINCE " ORDER BY " BID_KEY("bid") " IN " JUST_CAME " DESC, " BID_KEY("bid") " IN " WAITS " DESC,"
        " number - (type = 'P') * ?3 DESC, number DESC LIMIT ?2");
    struct taker taker = { function, context };

    if (statement) {
        bind_chosen(statement, to);
        sqlite3_bind_int(statement, 2, FRINGEMOLE_MAX_KNOWN);
        sqlite3_bind_int(statement, 3, PERSONAL_BEHIND);
    }
    return base_rows(base, statement, take_row, &taker);
}
