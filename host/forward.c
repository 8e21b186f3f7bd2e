#include "forward.h"
#include "call.h"
#include "known.h"
#include "say.h"

#include <string.h>

/* Places, and the first that is free. */
#define PLACES "WITH free(place) AS (SELECT 0 UNION ALL SELECT place + 1 FROM free WHERE place + 1 < " TEXT_OF(FRINGEMOLE_PARTNERS) ") "
#define FIRST_FREE \
    PLACES "SELECT coalesce(min(place), " TEXT_OF(FRINGEMOLE_PARTNERS) ") FROM free WHERE place NOT IN (SELECT place FROM forward)"

/* Of a row with an at-field: whose route fits it, or NULL. */
#define ROUTED \
    "(SELECT route.call FROM route WHERE route.part = '*'" \
    " OR instr('.' || upper(CAST(at AS TEXT)) || '.', '.' || route.part || '.') > 0" \
    " ORDER BY route.part = '*', length(route.part) DESC, route.part LIMIT 1)"
#define FIRST "(SELECT call FROM forward ORDER BY place LIMIT 1)"
#define FOR_IT "(type <> 'P' OR forward.call = coalesce(" ROUTED ", " FIRST "))"

/* A statement with a callsign in its first place, and a number in its second. */
static bool finish_with(struct base *base, const char *sql, struct part call, long long number)
{
    sqlite3_stmt *statement = base_prepare(base, sql);

    if (statement) {
        bind_part(statement, 1, call);
        if (sqlite3_bind_parameter_count(statement) > 1)
            sqlite3_bind_int64(statement, 2, number);
    }
    return base_finish(base, statement);
}

static bool ask_with(struct base *base, const char *sql, struct part call, long long *number)
{
    sqlite3_stmt *statement = base_prepare(base, sql);

    if (statement && sqlite3_bind_parameter_count(statement))
        bind_part(statement, 1, call);
    return base_number(base, statement, number);
}

/* ---- who has a place */

#define NO_PLACE (-1)

bool forward_find(struct base *base, struct part call, long long *place)
{
    return ask_with(base, "SELECT coalesce((SELECT place FROM forward WHERE call = ?1), " TEXT_OF(NO_PLACE) ")", call, place);
}

/* What the partner had before, when it was one, stands before what nobody has. */
static bool take_over(struct base *base, struct part call)
{
    return finish_with(base, "DELETE FROM passage WHERE call = x'' AND number IN (SELECT number FROM passage WHERE call = ?1)", call, 0)
        && finish_with(base, "UPDATE passage SET call = ?1 WHERE call = x''", call, 0)
        && finish_with(base, "UPDATE forward SET call = ?1 WHERE call = x''", call, 0);
}

static bool take_free(struct base *base, struct part call)
{
    long long place = FRINGEMOLE_PARTNERS;

    if (!ask_with(base, FIRST_FREE, call, &place))
        return false;
    if (place < FRINGEMOLE_PARTNERS)
        return finish_with(base, "INSERT INTO forward (call, place) VALUES (?, ?)", call, place);
    say("%s: the base has %d partners already, and no place for %.*s; dismiss one of them first", base->path, FRINGEMOLE_PARTNERS, (int)call.n,
        (const char *)call.at);
    return false;
}

bool forward_join(struct base *base, struct part call, uint8_t *place)
{
    long long found = NO_PLACE, nobody = NO_PLACE;
    bool right = forward_find(base, call, &found) && forward_find(base, part_of(""), &nobody);

    if (right && found == NO_PLACE)
        right = (nobody == NO_PLACE ? take_free(base, call) : take_over(base, call)) && forward_find(base, call, &found);
    *place = (uint8_t)found;
    return right;
}

/* Nobody takes the place of the last. */
static bool leave_to_nobody(struct base *base, struct part call)
{
    return finish_with(base, "UPDATE passage SET call = x'' WHERE call = ?1", call, 0)
        && finish_with(base, "UPDATE forward SET call = x'' WHERE call = ?1", call, 0);
}

#define WITHOUT_WAY \
    "SELECT outbox.number, forward.call, " SQL_WAITING " FROM outbox, forward WHERE " FOR_IT \
    " AND NOT EXISTS (SELECT 1 FROM passage WHERE passage.number = outbox.number)"

bool forward_leave(struct base *base, struct part call, bool *found)
{
    long long place = NO_PLACE, count = 0;

    if (!forward_find(base, call, &place) || !ask_with(base, "SELECT count(*) FROM forward", call, &count)
        || !finish_with(base, "DELETE FROM route WHERE call = ?1", call, 0))
        return false;
    if (place == NO_PLACE)
        return true;
    *found = true;
    if (count == 1)
        return leave_to_nobody(base, call);
    return finish_with(base, "DELETE FROM forward WHERE call = ?1", call, 0)
        && finish_with(base, "DELETE FROM passage WHERE call = ?1 AND state = " SQL_WAITING, call, 0)
        && base_execute(base, "INSERT INTO passage (number, call, state) " WITHOUT_WAY);
}

static bool take_text(void *into, sqlite3_stmt *statement)
{
    struct part part = column_part(statement, 0);

    bytes_add(into, part.at, part.n);
    return true;
}

bool forward_one(struct base *base, long long *count, struct bytes *call)
{
    if (!ask_with(base, "SELECT count(*) FROM forward", part_of(""), count))
        return false;
    return *count != 1 || base_rows(base, base_prepare(base, "SELECT call FROM forward"), take_text, call);
}

/* ---- which messages are for whom */

static bool finish_for(struct base *base, const char *sql, long long number)
{
    sqlite3_stmt *statement = base_prepare(base, sql);

    if (statement)
        sqlite3_bind_int64(statement, 1, number);
    return base_finish(base, statement);
}

bool forward_by_rule(struct base *base, long long number)
{
    return finish_for(base,
        "INSERT INTO passage (number, call, state)"
        " SELECT outbox.number, forward.call, " SQL_WAITING " FROM outbox, forward WHERE outbox.number = ?1 AND " FOR_IT, number);
}

bool forward_to(struct base *base, long long number, struct part calls, struct part *wrong)
{
    *wrong = part_of("");
    if (!finish_for(base, "DELETE FROM passage WHERE number = ?1 AND state = " SQL_WAITING, number))
        return false;
    while (calls.n) {
        struct part text = part_trimmed(part_until(&calls, ','));
        struct call call;
        long long place = NO_PLACE;
        if (call_read(text, &call) && !forward_find(base, part_of(call.text), &place))
            return false;
        if (place == NO_PLACE) {
            *wrong = text;
            return true;
        }
        if (!finish_with(base, "INSERT INTO passage (number, call, state) VALUES (?2, ?1, " SQL_WAITING ") ON CONFLICT DO NOTHING", part_of(call.text),
                number))
            return false;
    }
    return true;
}

/* Private mail has one way: who has it is where it went. */
bool forward_is_at(struct base *base, long long number, struct part calls)
{
    while (calls.n) {
        struct call call;
        long long place = NO_PLACE;
        if (!call_read(part_trimmed(part_until(&calls, ',')), &call))
            continue;
        if (!forward_find(base, part_of(call.text), &place))
            return false;
        if (place != NO_PLACE
            && (!finish_for(base,
                    "DELETE FROM passage WHERE number = ?1 AND state = " SQL_WAITING " AND (SELECT type FROM outbox WHERE number = ?1) = 'P'", number)
                || !finish_with(base,
                    "INSERT INTO passage (number, call, state) VALUES (?2, ?1, " SQL_FORWARDED ")"
                    " ON CONFLICT DO UPDATE SET state = " SQL_FORWARDED, part_of(call.text), number)))
            return false;
    }
    return true;
}

/* ---- passing on */

#define OURS "upper(substr(CAST(at AS TEXT), 1, instr(CAST(at AS TEXT) || '.', '.') - 1)) = (SELECT CAST(call AS TEXT) FROM station)"
#define GOES_ON \
    "FROM inbox, forward WHERE inbox.number = ?2 AND forward.call <> ?1" \
    " AND (type <> 'P' OR (forward.call = " ROUTED " AND NOT " OURS "))"
#define COPIED "form, type, \"from\", at, \"to\", bid, title, name, body, level"

/* What a level adds to a body isn't announced otherwise: the size is what the body has. */
bool forward_pass_on(struct base *base, long long inbox, struct part came_from)
{
    sqlite3_stmt *statement = base_prepare(base, "SELECT count(*) " GOES_ON);
    long long count = 0, number;

    if (statement) {
        bind_part(statement, 1, came_from);
        sqlite3_bind_int64(statement, 2, inbox);
    }
    if (!base_number(base, statement, &count))
        return false;
    if (!count)
        return true;
    if (!finish_for(base,
            "INSERT INTO outbox (" COPIED ", state, size, came)"
            " SELECT " COPIED ", " SQL_WAITING ", length(body), came FROM inbox WHERE number = ?1", inbox))
        return false;
    number = sqlite3_last_insert_rowid(base->db);
    statement = base_prepare(base, "INSERT INTO passage (number, call, state) SELECT ?3, forward.call, " SQL_WAITING " " GOES_ON);
    if (statement) {
        bind_part(statement, 1, came_from);
        sqlite3_bind_int64(statement, 2, inbox);
        sqlite3_bind_int64(statement, 3, number);
    }
    return base_finish(base, statement);
}

/* ---- questions */

static bool take_state(void *context, sqlite3_stmt *statement)
{
    uint8_t *states = context;
    long long place = sqlite3_column_int64(statement, 0), state = sqlite3_column_int64(statement, 1);

    if (place >= 0 && place < FRINGEMOLE_PARTNERS)
        states[place] = state >= WAITING && state <= DECLINED ? (uint8_t)state : DECLINED;
    return true;
}

bool forward_states(struct base *base, long long number, uint8_t states[FRINGEMOLE_PARTNERS])
{
    sqlite3_stmt *statement = base_prepare(base, "SELECT place, state FROM passage JOIN forward USING (call) WHERE number = ?");

    memset(states, FORWARD_NOT_FOR, FRINGEMOLE_PARTNERS);
    if (statement)
        sqlite3_bind_int64(statement, 1, number);
    return base_rows(base, statement, take_state, states);
}

static bool take_had(void *context, sqlite3_stmt *statement)
{
    struct bytes *calls = context;
    struct part call = column_part(statement, 0);

    if (calls->n)
        bytes_add(calls, ",", 1);
    bytes_add(calls, call.at, call.n);
    return true;
}

bool forward_had_by(struct base *base, long long number, struct bytes *calls)
{
    sqlite3_stmt *statement =
        base_prepare(base, "SELECT call FROM passage WHERE number = ? AND state = " SQL_FORWARDED " AND length(call) > 0 ORDER BY call");

    if (statement)
        sqlite3_bind_int64(statement, 1, number);
    return base_rows(base, statement, take_had, calls);
}

struct taker {
    forward_function *function;
    void *context;
};

static bool take_forward(void *context, sqlite3_stmt *statement)
{
    struct taker *taker = context;
    struct forward forward = { (uint8_t)sqlite3_column_int(statement, 0), column_part(statement, 1), sqlite3_column_int(statement, 2) != 0,
        sqlite3_column_int(statement, 3) != 0, sqlite3_column_int64(statement, 4), sqlite3_column_int64(statement, 5),
        sqlite3_column_int64(statement, 6) };

    return taker->function(taker->context, &forward);
}

#define WAITS \
    "FROM passage JOIN outbox USING (number) WHERE passage.call = forward.call" \
    " AND passage.state = " SQL_WAITING " AND outbox.state = " SQL_WAITING

bool forward_each(struct base *base, forward_function *function, void *context)
{
    struct taker taker = { function, context };

    return base_rows(base, base_prepare(base,
        "SELECT place, forward.call, partner.call IS NOT NULL, password IS NOT NULL, coalesce(seen, 0),"
        " (SELECT count(*) " WAITS "), (SELECT coalesce(sum(" ANNOUNCED("last") "), 0) " WAITS ")"
        " FROM (SELECT place, call, " LAST_LEVEL("call") " AS last FROM forward) AS forward"
        " LEFT JOIN partner ON partner.call = forward.call ORDER BY place"), take_forward, &taker);
}

/* ---- routes */

bool forward_set_route(struct base *base, struct part route, struct part call, bool *found)
{
    const char *sql = call.n ? "INSERT INTO route (call, part) VALUES (?1, upper(CAST(?2 AS TEXT))) ON CONFLICT (part) DO UPDATE SET call = ?1"
                             : "DELETE FROM route WHERE part = upper(CAST(?2 AS TEXT))";
    sqlite3_stmt *statement = base_prepare(base, sql);

    if (statement) {
        bind_part(statement, 1, call);
        bind_part(statement, 2, route);
    }
    if (!base_finish(base, statement))
        return false;
    *found = sqlite3_changes(base->db) > 0;
    return true;
}

struct route_taker {
    forward_route_function *function;
    void *context;
};

static bool take_route(void *context, sqlite3_stmt *statement)
{
    struct route_taker *taker = context;

    return taker->function(taker->context, column_part(statement, 0), column_part(statement, 1));
}

bool forward_each_route(struct base *base, forward_route_function *function, void *context)
{
    struct route_taker taker = { function, context };

    return base_rows(base, base_prepare(base, "SELECT part, call FROM route ORDER BY part = '*', length(part) DESC, part"), take_route, &taker);
}
