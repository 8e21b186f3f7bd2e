#include "statement.h"
#include "say.h"

#include <time.h>

/* An array of -1 where a number differs. */
typedef char waiting_is_its_number[WAITING == WAITING_NUMBER ? 1 : -1];
typedef char forwarded_is_its_number[FORWARDED == FORWARDED_NUMBER ? 1 : -1];
typedef char held_is_its_number[HELD == HELD_NUMBER ? 1 : -1];
typedef char plain_text_is_its_number[PLAIN_TEXT == PLAIN_TEXT_NUMBER ? 1 : -1];

bool base_wrong(struct base *base)
{
    if (base->quiet)
        return false;
    switch (sqlite3_errcode(base->db)) {
    case SQLITE_BUSY:
    case SQLITE_LOCKED:
        say("%s: the base is in use by another process", base->path);
        break;
    case SQLITE_NOTADB:
        say("%s: this file is no message base", base->path);
        break;
    default:
        say("%s: %s", base->path, sqlite3_errmsg(base->db));
    }
    return false;
}

bool base_execute(struct base *base, const char *sql)
{
    return sqlite3_exec(base->db, sql, NULL, NULL, NULL) == SQLITE_OK || base_wrong(base);
}

sqlite3_stmt *base_prepare(struct base *base, const char *sql)
{
    sqlite3_stmt *statement = NULL;

    if (sqlite3_prepare_v2(base->db, sql, -1, &statement, NULL) != SQLITE_OK)
        base_wrong(base);
    return statement;
}

void bind_part(sqlite3_stmt *statement, int place, struct part part)
{
    sqlite3_bind_blob64(statement, place, part.n ? (const void *)part.at : "", part.n, SQLITE_STATIC);
}

struct part column_part(sqlite3_stmt *statement, int place)
{
    const void *at = sqlite3_column_blob(statement, place);
    struct part part = { at, at ? (size_t)sqlite3_column_bytes(statement, place) : 0 };

    return part;
}

bool base_finish(struct base *base, sqlite3_stmt *statement)
{
    bool right = statement && (sqlite3_step(statement) == SQLITE_DONE || base_wrong(base));

    sqlite3_finalize(statement);
    return right;
}

bool base_number(struct base *base, sqlite3_stmt *statement, long long *number)
{
    bool right = statement && (sqlite3_step(statement) == SQLITE_ROW || base_wrong(base));

    if (right)
        *number = sqlite3_column_int64(statement, 0);
    sqlite3_finalize(statement);
    return right;
}

bool base_rows(struct base *base, sqlite3_stmt *statement, row_function *row, void *context)
{
    bool right = statement != NULL, on = right;

    while (on && sqlite3_step(statement) == SQLITE_ROW)
        on = right = row(context, statement);
    /* Finalize gives the error of the last step, if it had one. */
    return sqlite3_finalize(statement) == SQLITE_OK ? right : base_wrong(base);
}

long long base_now(void)
{
    return (long long)time(NULL);
}
