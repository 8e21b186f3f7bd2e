/* The BIDs that a base knows, for its other files. */
#ifndef KNOWN_H
#define KNOWN_H

#include "level.h"
#include "statement.h"

/* Numbers of the messages that one session takes, of those that wait for its partner: of plain and packed ones in turn, since a partner takes
 * only one of these kinds, those that were never deferred, oldest first, then those that were deferred longest ago. A packed text of level 0
 * that has no room for the check of level 1 isn't chosen for that. Places 1, 4 and 5 are bound by bind_chosen. */
#define CHOSEN \
    "(SELECT number FROM " WAITING_FOR " AND " FITS_LEVEL \
    " ORDER BY row_number() OVER (PARTITION BY form = " SQL_PLAIN_TEXT " ORDER BY passage.deferred, number), passage.deferred, number LIMIT ?1)"
#define WAITING_FOR \
    "passage JOIN outbox USING (number) WHERE passage.call = ?5 AND passage.state = " SQL_WAITING " AND outbox.state = " SQL_WAITING
#define FITS_LEVEL "(form = " SQL_PLAIN_TEXT " OR level > 0 OR length(body) NOT BETWEEN ?4 AND " TEXT_OF(FRINGEMOLE_MAX_BODY) ")"

/* The level that packed texts are lent in to a partner: that of the last session with it that had one, or 1. */
#define LAST_LEVEL(call) \
    "coalesce((SELECT level > 0 FROM session WHERE partner = " call " AND level IS NOT NULL ORDER BY number DESC LIMIT 1), 1)"

/* The size that a message of the outbox is announced with at a level: a packed text whose size is its length has it as it is lent (level.h). */
#define ANNOUNCED(at_level) \
    "size + CASE WHEN form = " SQL_PLAIN_TEXT " OR size <> length(body) OR (level > 0) = " at_level " THEN 0" \
    " WHEN " at_level " THEN " TEXT_OF(LEVEL_CHECK) " ELSE -" TEXT_OF(LEVEL_CHECK) " END"

void bind_chosen(sqlite3_stmt *statement, const struct receiver *to);

/* Its BID was seen now, the first time or again. */
bool known_add(struct base *base, struct part bid, uint8_t type);

#endif
