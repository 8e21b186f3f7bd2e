#include "home.h"
#include "call.h"
#include "statement.h"

#include <string.h>

/* Places in the statement that adds. */
enum { STATION = 1, CALL, MAILBOX, BID, STAMP, ORIGIN, HOPS, NAME, ZIP, TOWN, OLD, SOURCE, IN_INBOX, CAME };

void home_station(struct part call, struct bytes *station)
{
    struct call read;
    size_t i;

    if (call_read(call, &read)) {
        bytes_add(station, read.text, strlen(read.text));
        return;
    }
    for (i = 0; i < call.n; i++) {
        uint8_t byte = call.at[i];
        if (byte >= 'a' && byte <= 'z')
            byte = (uint8_t)(byte - 'a' + 'A');
        bytes_add(station, &byte, 1);
    }
}

static void bind_home(sqlite3_stmt *statement, const struct home *home, struct part station)
{
    bind_part(statement, STATION, station);
    bind_part(statement, CALL, home->call);
    bind_part(statement, MAILBOX, home->mailbox);
    bind_part(statement, BID, home->bid);
    sqlite3_bind_int64(statement, STAMP, home->stamp);
    bind_part(statement, ORIGIN, home->origin);
    if (home->hops != HOPS_UNKNOWN)
        sqlite3_bind_int64(statement, HOPS, home->hops);
    bind_part(statement, NAME, home->name);
    bind_part(statement, ZIP, home->zip);
    bind_part(statement, TOWN, home->town);
    sqlite3_bind_int(statement, OLD, home->old);
    bind_part(statement, SOURCE, home->source);
    sqlite3_bind_int(statement, IN_INBOX, home->inbox);
    sqlite3_bind_int64(statement, CAME, base_now());
}

bool home_add(struct base *base, const struct home *home, bool *added)
{
    sqlite3_stmt *statement = base_prepare(base,
        "INSERT INTO home (station, call, mailbox, bid, stamp, origin, hops, name, zip, town, old, source, inbox, came)"
        " SELECT ?1, ?2, ?3, ?4, ?5, ?6, ?7, ?8, ?9, ?10, ?11, ?12, ?13, ?14 WHERE NOT EXISTS (SELECT 1 FROM home WHERE station = ?1 AND stamp = ?5"
        " AND call = ?2 AND mailbox = ?3 AND bid = ?4 AND origin = ?6 AND hops IS ?7 AND name = ?8 AND zip = ?9 AND town = ?10 AND old = ?11)");
    struct bytes station = { NULL, 0, 0 };
    bool right;

    home_station(home->call, &station);
    if (statement)
        bind_home(statement, home, part_all(&station));
    right = base_finish(base, statement);
    bytes_free(&station);
    *added = right && sqlite3_changes(base->db) > 0;
    return right;
}

struct taker {
    home_function *function;
    void *context;
};

static bool take_row(void *context, sqlite3_stmt *statement)
{
    struct taker *taker = context;
    struct home home = { column_part(statement, 0), column_part(statement, 1), column_part(statement, 2), column_part(statement, 3),
        column_part(statement, 4), column_part(statement, 5), column_part(statement, 6), sqlite3_column_int64(statement, 7),
        sqlite3_column_type(statement, 8) == SQLITE_NULL ? HOPS_UNKNOWN : sqlite3_column_int64(statement, 8),
        sqlite3_column_int(statement, 9) != 0, column_part(statement, 10), sqlite3_column_int(statement, 11) != 0 };

    return taker->function(taker->context, &home);
}

bool home_each(struct base *base, struct part station, home_function *function, void *context)
{
    sqlite3_stmt *statement = base_prepare(base,
        "SELECT call, mailbox, bid, origin, name, zip, town, stamp, hops, old, source, inbox FROM home WHERE station = ?"
        " ORDER BY stamp DESC, hops IS NULL, hops, number DESC");
    struct taker taker = { function, context };

    if (statement)
        bind_part(statement, 1, station);
    return base_rows(base, statement, take_row, &taker);
}
