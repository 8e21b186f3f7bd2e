#include "shelf.h"
#include "level.h"

#include <string.h>

/* ---- entries of lent memory */

/* Bytes of a number there: where a part of a store starts, an announced size; a heading's length; a body's. */
#define START_BYTES 4
#define SIZE_BYTES 4
#define HEADING_LENGTH_BYTES 1
#define BODY_LENGTH_BYTES 2

static void put_number(uint8_t *at, size_t bytes, size_t value)
{
    size_t i;

    for (i = 0; i < bytes; i++, value >>= 8)
        at[i] = (uint8_t)value;
}

/* A field that is too long keeps a wrong length, so that open refuses it. */
static void put_field(uint8_t *at, size_t limit, struct part field)
{
    at[0] = field.n > UINT8_MAX ? UINT8_MAX : (uint8_t)field.n;
    if (field.n)
        memcpy(at + 1, field.at, field.n > limit ? limit : field.n);
}

static struct part get_field(const uint8_t *at)
{
    struct part field = { at + 1, at[0] };

    return field;
}

/* A part of a store: where it starts and its length. */
static void put_part(uint8_t *at, size_t bytes, struct bytes *store, struct part part)
{
    size_t most = bytes == HEADING_LENGTH_BYTES ? UINT8_MAX : FRINGEMOLE_MAX_BODY;

    put_number(at, START_BYTES, store->n);
    put_number(at + START_BYTES, bytes, part.n > most ? most : part.n);
    bytes_add(store, part.at, part.n);
}

struct message shelf_message(const struct shelf *shelf, size_t place)
{
    const uint8_t *entry = shelf->inbox.at + place * FRINGEMOLE_ENTRY_SIZE;
    struct part heading = get_field(entry + FRINGEMOLE_ENTRY_HEADING);
    struct message message;

    memset(&message, 0, sizeof message);
    message.form = entry[FRINGEMOLE_ENTRY_FORM];
    message.type = entry[FRINGEMOLE_ENTRY_TYPE];
    message.from = get_field(entry + FRINGEMOLE_ENTRY_FROM);
    message.at = get_field(entry + FRINGEMOLE_ENTRY_AT);
    message.to = get_field(entry + FRINGEMOLE_ENTRY_TO);
    message.bid = get_field(entry + FRINGEMOLE_ENTRY_BID);
    *(message.form == PACKED_FILE ? &message.name : &message.title) = heading;
    message.body.at = shelf->store.at + bytes_number(entry + FRINGEMOLE_ENTRY_BODY, START_BYTES);
    message.body.n = bytes_number(entry + FRINGEMOLE_ENTRY_BODY_LEN, BODY_LENGTH_BYTES);
    message.level = message.form == PLAIN_TEXT ? 0 : level_in_force(shelf->session);
    return message;
}

/* ---- filling */

void shelf_start(struct shelf *shelf, uint8_t partner, size_t room)
{
    memset(shelf, 0, sizeof *shelf);
    shelf->partner = partner;
    bytes_zeros(&shelf->inbox, FRINGEMOLE_MAX_MESSAGES * FRINGEMOLE_ENTRY_SIZE);
    bytes_zeros(&shelf->store, room);
}

size_t shelf_records(const struct shelf *shelf)
{
    return shelf->table.n / FRINGEMOLE_RECORD_SIZE;
}

bool shelf_add(struct shelf *shelf, const struct message *message)
{
    size_t place = shelf_records(shelf);
    uint8_t *record;

    if (place == FRINGEMOLE_MAX_RECORDS || message->body.n > FRINGEMOLE_MAX_BODY)
        return false;
    record = bytes_zeros(&shelf->table, FRINGEMOLE_RECORD_SIZE);
    memcpy(record + FRINGEMOLE_RECORD_STATES, message->states, FRINGEMOLE_PARTNERS);
    record[FRINGEMOLE_RECORD_FORM] = message->form;
    record[FRINGEMOLE_RECORD_TYPE] = message->type;
    put_field(record + FRINGEMOLE_RECORD_FROM, FRINGEMOLE_MAX_CALL, message->from);
    put_field(record + FRINGEMOLE_RECORD_AT, FRINGEMOLE_MAX_AT, message->at);
    put_field(record + FRINGEMOLE_RECORD_TO, FRINGEMOLE_MAX_CALL, message->to);
    put_field(record + FRINGEMOLE_RECORD_BID, FRINGEMOLE_MAX_BID, message->bid);
    put_number(record + FRINGEMOLE_RECORD_SIZE_FIELD, SIZE_BYTES, message->size);
    put_part(record + FRINGEMOLE_RECORD_TITLE, HEADING_LENGTH_BYTES, &shelf->titles, message->title);
    put_part(record + FRINGEMOLE_RECORD_NAME, HEADING_LENGTH_BYTES, &shelf->names, message->name);
    put_part(record + FRINGEMOLE_RECORD_BODY, BODY_LENGTH_BYTES, &shelf->bodies, message->body);
    shelf->numbers[place] = message->number;
    shelf->states[place] = message->states[shelf->partner];
    return true;
}

bool shelf_know(struct shelf *shelf, struct part bid)
{
    if (shelf->known.n == FRINGEMOLE_MAX_KNOWN * FRINGEMOLE_KNOWN_SIZE)
        return false;
    put_field(bytes_zeros(&shelf->known, FRINGEMOLE_KNOWN_SIZE) + FRINGEMOLE_KNOWN_BID, FRINGEMOLE_MAX_BID, bid);
    return true;
}

struct fringemole_reply shelf_open(struct shelf *shelf, uint8_t role)
{
    struct fringemole_memory lent = {
        shelf->session, sizeof shelf->session, shelf->table.at, shelf->table.n, shelf->titles.at, shelf->titles.n, shelf->names.at,
        shelf->names.n, shelf->bodies.at, shelf->bodies.n, shelf->known.at, shelf->known.n, shelf->inbox.at, shelf->inbox.n,
        shelf->store.at, shelf->store.n
    };

    shelf->lent = lent;
    return fringemole_open_in(&shelf->lent, role, shelf->partner);
}

struct part shelf_bid(const struct shelf *shelf, size_t place)
{
    return get_field(shelf->table.at + place * FRINGEMOLE_RECORD_SIZE + FRINGEMOLE_RECORD_BID);
}

/* ---- saving */

static uint8_t state_now(const struct shelf *shelf, size_t place)
{
    return shelf->table.at[place * FRINGEMOLE_RECORD_SIZE + FRINGEMOLE_RECORD_STATES + shelf->partner];
}

static bool changed(const struct shelf *shelf)
{
    size_t place;

    for (place = 0; place < shelf_records(shelf); place++) {
        if (state_now(shelf, place) != shelf->states[place])
            return true;
    }
    return shelf->session[FRINGEMOLE_SESSION_KEPT] != shelf->kept;
}

static bool write_changes(const struct shelf *shelf, struct base *base, const struct passage *passage)
{
    size_t place;

    for (place = 0; place < shelf_records(shelf); place++) {
        uint8_t state = state_now(shelf, place);
        if (state != shelf->states[place] && !base_mark(base, shelf->numbers[place], state, passage))
            return false;
    }
    for (place = shelf->kept; place < shelf->session[FRINGEMOLE_SESSION_KEPT]; place++) {
        struct message message = shelf_message(shelf, place);
        if (!base_keep(base, &message, passage))
            return false;
    }
    return true;
}

bool shelf_save(struct shelf *shelf, struct base *base, const struct passage *passage)
{
    size_t place;

    if (!changed(shelf))
        return true;
    if (!base_begin(base))
        return false;
    if (!write_changes(shelf, base, passage) || !base_commit(base)) {
        base_undo(base);
        return false;
    }
    for (place = 0; place < shelf_records(shelf); place++)
        shelf->states[place] = state_now(shelf, place);
    shelf->kept = shelf->session[FRINGEMOLE_SESSION_KEPT];
    return true;
}

static bool is_deferred(const struct shelf *shelf, size_t place)
{
    return shelf->session[FRINGEMOLE_SESSION_DEFERRED + place] == 1 && state_now(shelf, place) == WAITING;
}

void shelf_unoffered(const struct shelf *shelf, size_t *plain, size_t *packed)
{
    size_t place;

    for (place = 0; place < shelf_records(shelf); place++) {
        if (state_now(shelf, place) == WAITING && !is_deferred(shelf, place))
            ++*(shelf->table.at[place * FRINGEMOLE_RECORD_SIZE + FRINGEMOLE_RECORD_FORM] == PLAIN_TEXT ? plain : packed);
    }
}

bool shelf_save_deferred(const struct shelf *shelf, struct base *base, const struct passage *passage)
{
    size_t place;

    for (place = 0; place < shelf_records(shelf); place++) {
        if (is_deferred(shelf, place) && !base_defer(base, shelf->numbers[place], passage))
            return false;
    }
    return true;
}

void shelf_clear(struct shelf *shelf)
{
    bytes_free(&shelf->table);
    bytes_free(&shelf->titles);
    bytes_free(&shelf->names);
    bytes_free(&shelf->bodies);
    bytes_free(&shelf->known);
    bytes_free(&shelf->inbox);
    bytes_free(&shelf->store);
}
