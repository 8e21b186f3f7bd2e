#include "history.h"
#include "known.h"

#include <string.h>

bool history_begin(struct base *base, struct part partner, uint8_t role, long long *number)
{
    sqlite3_stmt *statement = base_prepare(base, "INSERT INTO session (began, partner, role) VALUES (?, ?, ?)");

    if (statement) {
        sqlite3_bind_int64(statement, 1, base_now());
        bind_part(statement, 2, partner);
        sqlite3_bind_int(statement, 3, role);
    }
    if (!base_finish(base, statement))
        return false;
    *number = sqlite3_last_insert_rowid(base->db);
    return true;
}

bool history_end(struct base *base, const struct history *session)
{
    sqlite3_stmt *statement = base_prepare(base,
        "UPDATE session SET ended = ?, ending = CAST(? AS TEXT), refusal = ?, line = ?,"
        " forwarded = ?, declined = ?, deferred = ?, kept = ?, sent = ?, received = ?, level = ?,"
        " proposed = ?, unsettled = ?, waiting = ?, waiting_bytes = ? WHERE number = ?");

    if (statement) {
        sqlite3_bind_int64(statement, 1, base_now());
        bind_part(statement, 2, session->ending);
        sqlite3_bind_int64(statement, 3, session->refusal);
        bind_part(statement, 4, session->line);
        sqlite3_bind_int64(statement, 5, (long long)session->panel.forwarded);
        sqlite3_bind_int64(statement, 6, (long long)session->panel.declined);
        sqlite3_bind_int64(statement, 7, (long long)session->panel.deferred);
        sqlite3_bind_int64(statement, 8, (long long)session->kept);
        sqlite3_bind_int64(statement, 9, (long long)session->sent);
        sqlite3_bind_int64(statement, 10, (long long)session->received);
        if (session->level >= 0)
            sqlite3_bind_int(statement, 11, session->level);
        sqlite3_bind_int64(statement, 12, (long long)session->panel.proposed);
        sqlite3_bind_int64(statement, 13, (long long)session->panel.unsettled);
        sqlite3_bind_int64(statement, 14, (long long)session->panel.waiting);
        sqlite3_bind_int64(statement, 15, (long long)session->panel.bytes);
        sqlite3_bind_int64(statement, 16, session->number);
    }
    return base_finish(base, statement);
}

bool history_level(struct base *base, struct part partner, uint8_t *level)
{
    sqlite3_stmt *statement = base_prepare(base,
        "SELECT " LAST_LEVEL("?"));
    long long number = 1;

    if (statement)
        bind_part(statement, 1, partner);
    if (!base_number(base, statement, &number))
        return false;
    *level = (uint8_t)number;
    return true;
}

struct taker {
    history_function *function;
    void *context;
};

static bool take_row(void *context, sqlite3_stmt *statement)
{
    struct taker *taker = context;
    struct history session;

    memset(&session, 0, sizeof session);
    session.number = sqlite3_column_int64(statement, 0);
    session.began = sqlite3_column_int64(statement, 1);
    session.ended = sqlite3_column_int64(statement, 2);
    session.partner = column_part(statement, 3);
    session.role = (uint8_t)sqlite3_column_int(statement, 4);
    session.ending = column_part(statement, 5);
    session.refusal = (unsigned)sqlite3_column_int(statement, 6);
    session.line = column_part(statement, 7);
    session.panel.forwarded = (unsigned long)sqlite3_column_int64(statement, 8);
    session.panel.declined = (unsigned long)sqlite3_column_int64(statement, 9);
    session.panel.deferred = (unsigned long)sqlite3_column_int64(statement, 10);
    session.kept = (unsigned long)sqlite3_column_int64(statement, 11);
    session.sent = (unsigned long)sqlite3_column_int64(statement, 12);
    session.received = (unsigned long)sqlite3_column_int64(statement, 13);
    session.has_panel = sqlite3_column_type(statement, 14) != SQLITE_NULL;
    session.panel.proposed = (unsigned long)sqlite3_column_int64(statement, 14);
    session.panel.unsettled = (unsigned long)sqlite3_column_int64(statement, 15);
    session.panel.waiting = (unsigned long)sqlite3_column_int64(statement, 16);
    session.panel.bytes = (unsigned long)sqlite3_column_int64(statement, 17);
    return taker->function(taker->context, &session);
}

bool history_each(struct base *base, history_function *function, void *context)
{
    struct taker taker = { function, context };
    sqlite3_stmt *statement = base_prepare(base,
        "SELECT number, began, ended, partner, role, ending, refusal, line, forwarded, declined, deferred, kept, sent, received,"
        " proposed, unsettled, waiting, waiting_bytes FROM session ORDER BY number DESC");

    return base_rows(base, statement, take_row, &taker);
}
