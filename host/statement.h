/* What the files of the base share: an SQLite connection and its statements. No other file knows SQLite. */
#ifndef STATEMENT_H
#define STATEMENT_H

#include "base.h"

#include <sqlite3.h>

/* States and forms in a statement. As text and not bound: an index over what waits serves only where the number itself stands. An enumerator is no
 * text, so each has its number here once more; statement.c compiles only if these are the enumerators' (message.h). */
#define WAITING_NUMBER 0
#define FORWARDED_NUMBER 1
#define HELD_NUMBER 3
#define PLAIN_TEXT_NUMBER 0
#define SQL_WAITING TEXT_OF(WAITING_NUMBER)
#define SQL_FORWARDED TEXT_OF(FORWARDED_NUMBER)
#define SQL_HELD TEXT_OF(HELD_NUMBER)
#define SQL_PLAIN_TEXT TEXT_OF(PLAIN_TEXT_NUMBER)

struct base {
    sqlite3 *db;
    const char *path; /* as the operator names it */
    char *file;       /* where it is */
    int session_lock; /* descriptor of the lock file, or -1 */
    bool quiet;       /* says nothing of what SQLite holds against us: it will be tried again */
};

/* Says what SQLite holds against us, and answers false. */
bool base_wrong(struct base *base);
/* Statements without rows. */
bool base_execute(struct base *base, const char *sql);
/* NULL after it has said what is wrong. */
sqlite3_stmt *base_prepare(struct base *base, const char *sql);
/* An empty part may lie nowhere, but is an empty blob and not NULL. */
void bind_part(sqlite3_stmt *statement, int place, struct part part);
struct part column_part(sqlite3_stmt *statement, int place);
/* Runs a statement that gives no rows, and is done with it. NULL: false. */
bool base_finish(struct base *base, sqlite3_stmt *statement);
/* The one number that a statement gives, and is done with it. NULL: false. */
bool base_number(struct base *base, sqlite3_stmt *statement, long long *number);
/* Calls `row` for each row until it answers false, and is done with the statement. */
typedef bool row_function(void *context, sqlite3_stmt *statement);
bool base_rows(struct base *base, sqlite3_stmt *statement, row_function *row, void *context);

/* Connects to a file by these flags of SQLite, in place of another. */
bool base_reach(struct base *base, const char *file, int flags);
/* Whether a version is one of a base; says if it is none. */
bool base_is(struct base *base, int version);
/* To today's version. */
bool base_lift(struct base *base);
bool base_open_read_only(struct base *base);
/* The name of a file beside the base, to be freed. */
char *base_beside(const struct base *base, const char *ending);

bool base_set_station(struct base *base, struct part call, struct part partner);

/* Seconds since 1970. */
long long base_now(void);

#endif
