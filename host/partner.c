#include "partner.h"
#include "statement.h"

#include <string.h>

bool partner_set(struct base *base, struct part call, struct part password)
{
    sqlite3_stmt *statement = base_prepare(base,
        "INSERT INTO partner (call, password) VALUES (?, ?) ON CONFLICT (call) DO UPDATE SET password = excluded.password");

    if (statement) {
        bind_part(statement, 1, call);
        if (password.n)
            bind_part(statement, 2, password);
    }
    return base_finish(base, statement);
}

bool partner_remove(struct base *base, struct part call, bool *found)
{
    sqlite3_stmt *statement = base_prepare(base, "DELETE FROM partner WHERE call = ?");

    if (statement)
        bind_part(statement, 1, call);
    if (!base_finish(base, statement))
        return false;
    *found = sqlite3_changes(base->db) > 0;
    return true;
}

bool partner_seen(struct base *base, struct part call)
{
    sqlite3_stmt *statement = base_prepare(base, "UPDATE partner SET seen = ? WHERE call = ?");

    if (statement) {
        sqlite3_bind_int64(statement, 1, base_now());
        bind_part(statement, 2, call);
    }
    return base_finish(base, statement);
}

/* ---- questions */

#define ROW "call, password IS NOT NULL, coalesce(seen, 0)"

static struct partner partner_of(sqlite3_stmt *statement)
{
    struct partner partner = { column_part(statement, 0), sqlite3_column_int(statement, 1) != 0, sqlite3_column_int64(statement, 2) };

    return partner;
}

struct search {
    struct partner partner;
    int found;
};

static bool take_found(void *context, sqlite3_stmt *statement)
{
    struct search *search = context;

    search->partner = partner_of(statement);
    search->found = 1;
    return true;
}

int partner_find(struct base *base, struct part call, struct partner *partner)
{
    sqlite3_stmt *statement = base_prepare(base, "SELECT " ROW " FROM partner WHERE call = ?");
    struct search search;

    memset(&search, 0, sizeof search);
    if (statement)
        bind_part(statement, 1, call);
    if (!base_rows(base, statement, take_found, &search))
        return -1;
    *partner = search.partner;
    partner->call = call;
    return search.found;
}

struct secret {
    uint8_t bytes[PARTNER_MAX_PASSWORD + 1]; /* length, then bytes, then zeros */
};

static void keep_secret(struct secret *secret, struct part password)
{
    memset(secret, 0, sizeof *secret);
    secret->bytes[0] = (uint8_t)password.n;
    if (password.n)
        memcpy(secret->bytes + 1, password.at, password.n);
}

static bool take_secret(void *context, sqlite3_stmt *statement)
{
    struct part password = column_part(statement, 0);

    if (password.n <= PARTNER_MAX_PASSWORD)
        keep_secret(context, password);
    return true;
}

/* Every byte is looked at, whichever differ. */
static bool same(const struct secret *a, const struct secret *b)
{
    volatile uint8_t differ = 0;
    size_t i;

    for (i = 0; i < sizeof a->bytes; i++)
        differ |= (uint8_t)(a->bytes[i] ^ b->bytes[i]);
    return differ == 0;
}

int partner_admits(struct base *base, struct part call, struct part password)
{
    sqlite3_stmt *statement = base_prepare(base, "SELECT password FROM partner WHERE call = ?");
    struct secret right, given;
    bool is;

    keep_secret(&right, part_of(""));
    keep_secret(&given, password.n <= PARTNER_MAX_PASSWORD ? password : part_of(""));
    if (statement)
        bind_part(statement, 1, call);
    if (!base_rows(base, statement, take_secret, &right))
        return -1;
    is = same(&right, &given);
    return is && right.bytes[0] > 0;
}

struct taker {
    partner_function *function;
    void *context;
};

static bool take_row(void *context, sqlite3_stmt *statement)
{
    struct taker *taker = context;
    struct partner partner = partner_of(statement);

    return taker->function(taker->context, &partner);
}

bool partner_each(struct base *base, partner_function *function, void *context)
{
    struct taker taker = { function, context };

    return base_rows(base, base_prepare(base, "SELECT " ROW " FROM partner ORDER BY call"), take_row, &taker);
}
