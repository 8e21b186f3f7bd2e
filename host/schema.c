#include "schema.h"
#include "bid.h"
#include "say.h"
#include "statement.h"

#define MARK 1179479916 /* the file's application_id: "FMol" */

/* A new base takes all steps, so that new and lifted ones are alike. A step that has been in use is never changed: add another. So a step has the
 * numbers of its day and no names for them. */
static const char to_1[] =
    "PRAGMA application_id = " TEXT_OF(MARK) ";"
    "CREATE TABLE station (call BLOB NOT NULL, partner BLOB NOT NULL);"
    "CREATE TABLE outbox (number INTEGER PRIMARY KEY AUTOINCREMENT,"
    " state INTEGER NOT NULL," /* 0 waiting, 1 forwarded, 2 declined, 3 held */
    " form INTEGER NOT NULL,"  /* 0 plain text, 1 packed message, 2 packed file */
    " type TEXT NOT NULL,"     /* P or B */
    " \"from\" BLOB NOT NULL, at BLOB NOT NULL, \"to\" BLOB NOT NULL, bid BLOB NOT NULL UNIQUE,"
    " size INTEGER NOT NULL, title BLOB NOT NULL, name BLOB NOT NULL, body BLOB NOT NULL);"
    "CREATE INDEX waiting ON outbox (number) WHERE state = 0;"
    "CREATE TABLE inbox (number INTEGER PRIMARY KEY AUTOINCREMENT,"
    " form INTEGER NOT NULL, type TEXT NOT NULL,"
    " \"from\" BLOB NOT NULL, at BLOB NOT NULL, \"to\" BLOB NOT NULL, bid BLOB NOT NULL,"
    " title BLOB NOT NULL, name BLOB NOT NULL, body BLOB NOT NULL);"
    "CREATE TABLE known (number INTEGER PRIMARY KEY, bid BLOB NOT NULL UNIQUE);";

/* Times are seconds since 1970, NULL where nobody noted them; callsigns of partners are capitals without SSID, empty where nobody told. A BID that an
 * old base has no message of counts as a bulletin's, which is lent longer. A second message of one BID in the inbox, or one of a BID of
 * the outbox, is a copy: import took no BID that was known, so what came in came later. As much as a session keeps counts as that of a
 * last session, number 0: it may come again. */
static const char to_2[] =
    "CREATE TABLE partner (call BLOB NOT NULL PRIMARY KEY, password BLOB, seen INTEGER);"
    "UPDATE station SET partner ="
    " CAST(upper(substr(CAST(partner AS TEXT), 1, instr(CAST(partner AS TEXT) || '-', '-') - 1)) AS BLOB);"
    "INSERT INTO partner (call) SELECT partner FROM station WHERE length(partner) > 0;"
    "CREATE TABLE session (number INTEGER PRIMARY KEY AUTOINCREMENT, began INTEGER NOT NULL, ended INTEGER,"
    " partner BLOB NOT NULL, role INTEGER NOT NULL," /* 0 called, 1 caller */
    " ending TEXT, refusal INTEGER, line BLOB,"      /* line: the partner's, that was refused */
    " forwarded INTEGER, declined INTEGER, deferred INTEGER, kept INTEGER, sent INTEGER, received INTEGER);"
    "ALTER TABLE outbox ADD COLUMN came INTEGER;"
    "ALTER TABLE outbox ADD COLUMN went INTEGER;" /* when it was forwarded or declined, to whom and in which session */
    "ALTER TABLE outbox ADD COLUMN partner BLOB;"
    "ALTER TABLE outbox ADD COLUMN session INTEGER;"
    "ALTER TABLE outbox ADD COLUMN deferred INTEGER NOT NULL DEFAULT 0;" /* the last session that deferred it */
    "ALTER TABLE inbox ADD COLUMN came INTEGER;"
    "ALTER TABLE inbox ADD COLUMN partner BLOB;"
    "ALTER TABLE inbox ADD COLUMN session INTEGER;"
    "ALTER TABLE inbox ADD COLUMN copy INTEGER NOT NULL DEFAULT 0;" /* 0 the first of its BID, then 1, 2 .. */
    "CREATE INDEX inbox_bid ON inbox (bid);"
    "CREATE INDEX inbox_session ON inbox (session);"
    "UPDATE inbox SET session = 0, partner = (SELECT partner FROM station)"
    " WHERE number IN (SELECT number FROM inbox ORDER BY number DESC LIMIT 64);"
    "UPDATE inbox SET copy ="
    " (SELECT count(*) FROM inbox AS other WHERE other.bid = inbox.bid AND other.number < inbox.number)"
    " + EXISTS (SELECT 1 FROM outbox WHERE outbox.bid = inbox.bid);"
    "ALTER TABLE known ADD COLUMN type TEXT NOT NULL DEFAULT 'B';"
    "ALTER TABLE known ADD COLUMN seen INTEGER NOT NULL DEFAULT 0;"
    "UPDATE known SET type = 'P' WHERE EXISTS (SELECT 1 FROM outbox WHERE outbox.bid = known.bid AND type = 'P')"
    " OR EXISTS (SELECT 1 FROM inbox WHERE inbox.bid = known.bid AND type = 'P');";

/* To older versions BIDs that differ in the case of letters were two (bid.h). All messages stay; of those in the outbox that are twins now
 * the first goes, the others are held; those in the inbox are copies. */
#define FIRST_VERSION_WITH_TWINS 3
#define LATER_TWIN "EXISTS (SELECT 1 FROM outbox AS first WHERE " SAME_BID("first.bid", "outbox.bid") " AND first.number < outbox.number)"

static const char to_3[] =
    "CREATE INDEX outbox_bid ON outbox (" BID_KEY("bid") ");"
    "DROP INDEX inbox_bid;"
    "CREATE INDEX inbox_bid ON inbox (" BID_KEY("bid") ");"
    "CREATE INDEX known_bid ON known (" BID_KEY("bid") ");"
    "UPDATE outbox SET state = 3 WHERE state = 0 AND " LATER_TWIN ";"
    "UPDATE inbox SET copy ="
    " (SELECT count(*) FROM inbox AS other WHERE " SAME_BID("other.bid", "inbox.bid") " AND other.number < inbox.number)"
    " + EXISTS (SELECT 1 FROM outbox WHERE " SAME_BID("outbox.bid", "inbox.bid") ")"
    " WHERE EXISTS (SELECT 1 FROM known AS other WHERE " SAME_BID("other.bid", "inbox.bid") " AND other.bid <> inbox.bid);";

/* Up to here our SID had B without a number, so every packed text is of level 0. What a session's SIDs came to is noted from now on. */
static const char to_4[] =
    "ALTER TABLE outbox ADD COLUMN level INTEGER NOT NULL DEFAULT 0;" /* of a packed text: 1 with its two check bytes in front */
    "ALTER TABLE inbox ADD COLUMN level INTEGER NOT NULL DEFAULT 0;"
    "ALTER TABLE session ADD COLUMN level INTEGER;"; /* in force; NULL if no SID came, or nobody noted it */

/* Home mailboxes, as white pages name them (home.h). */
static const char to_5[] =
    "CREATE TABLE home (number INTEGER PRIMARY KEY AUTOINCREMENT,"
    " station BLOB NOT NULL,"   /* whose: the call's capitals without SSID */
    " call BLOB NOT NULL, mailbox BLOB NOT NULL, bid BLOB NOT NULL,"
    " stamp INTEGER NOT NULL,"  /* seconds since 1970 */
    " origin BLOB NOT NULL, hops INTEGER," /* NULL where the old white pages don't tell */
    " name BLOB NOT NULL, zip BLOB NOT NULL, town BLOB NOT NULL,"
    " old INTEGER NOT NULL,"    /* 1: of the old white pages, its date was converted */
    " source BLOB NOT NULL, inbox INTEGER NOT NULL," /* 0: a file's name, 1: the BID of a message of the inbox */
    " came INTEGER NOT NULL);"  /* when it was read */
    "CREATE INDEX home_station ON home (station, stamp);";

/* A state a partner (forward.h). Up to here what one partner took counted as forwarded to all, and what waited was for whoever called: marks
 * now stand for each partner, bulletins wait for all, private mail for the first, which is the base's own if it has one. Beyond eight there
 * is no place: who has none may call in vain until another is dismissed. Of `state` in the outbox only 0 and 3, held, are left. */
static const char to_6[] =
    "CREATE TABLE forward (place INTEGER PRIMARY KEY CHECK (place BETWEEN 0 AND 7), call BLOB NOT NULL UNIQUE);"
    "CREATE TABLE route (part TEXT NOT NULL PRIMARY KEY, call BLOB NOT NULL);" /* part: capitals, or * */
    "CREATE TABLE passage (number INTEGER NOT NULL, call BLOB NOT NULL,"       /* of the outbox, and for whom */
    " state INTEGER NOT NULL,"                                                 /* 0 waiting, 1 forwarded, 2 declined */
    " went INTEGER, session INTEGER,"                                          /* when it was forwarded or declined, in which session */
    " deferred INTEGER NOT NULL DEFAULT 0,"                                    /* the last session that deferred it */
    " PRIMARY KEY (number, call)) WITHOUT ROWID;"
    "INSERT INTO forward SELECT row_number() OVER (ORDER BY rank, call) - 1, call FROM"
    " (SELECT 0 AS rank, partner AS call FROM station WHERE length(partner) > 0"
    "  UNION SELECT 1, call FROM partner WHERE call NOT IN (SELECT partner FROM station)) LIMIT 8;"
    "INSERT INTO forward SELECT 0, x'' WHERE NOT EXISTS (SELECT 1 FROM forward);"
    "INSERT INTO passage (number, call, state, went, session, deferred)"
    " SELECT number, forward.call, state % 3, went, session, deferred FROM outbox, forward"
    " WHERE type <> 'P' OR place = 0 OR state IN (1, 2);"
    "UPDATE outbox SET state = 0 WHERE state <> 3;"
    "DROP INDEX waiting;"
    "CREATE INDEX passage_waiting ON passage (call, number) WHERE state = 0;";

/* The rest of what the front panel showed at a session's end (panel.h), beside forwarded, declined and deferred; NULL if nobody noted it. */
static const char to_7[] =
    "ALTER TABLE session ADD COLUMN proposed INTEGER;"
    "ALTER TABLE session ADD COLUMN unsettled INTEGER;"
    "ALTER TABLE session ADD COLUMN waiting INTEGER;"
    "ALTER TABLE session ADD COLUMN waiting_bytes INTEGER;";

static const char *const steps[BASE_VERSION] = { to_1, to_2, to_3, to_4, to_5, to_6, to_7 };

/* Of a file without our mark. */
static int nothing_yet(struct base *base, long long mark)
{
    long long tables = 0;

    if (!base_number(base, base_prepare(base, "SELECT count(*) FROM sqlite_master"), &tables))
        return -1;
    if (!tables && !mark)
        return 0;
    say("%s: this file is no message base", base->path);
    return -1;
}

int schema_version(struct base *base)
{
    long long mark = 0, version = 0;

    if (!base_number(base, base_prepare(base, "PRAGMA application_id"), &mark)
        || !base_number(base, base_prepare(base, "PRAGMA user_version"), &version))
        return -1;
    if (mark != MARK)
        return nothing_yet(base, mark);
    if (version >= 1 && version <= BASE_VERSION)
        return (int)version;
    say("%s: a base of version %lld, this program knows versions 1 to %d", base->path, version, BASE_VERSION);
    return -1;
}

/* The operator hears of twins when the base is lifted; list shows them. */
static bool tell_twins(struct base *base)
{
    long long held = 0;

    if (!base_number(base, base_prepare(base, "SELECT count(*) FROM outbox WHERE state = " SQL_HELD " AND " LATER_TWIN), &held))
        return false;
    if (held)
        say("%s: messages of the outbox that are held, since another has their BID but for the case of letters: %lld", base->path, held);
    return true;
}

bool schema_lift(struct base *base, int version)
{
    bool older = version < FIRST_VERSION_WITH_TWINS;

    for (; version < BASE_VERSION; version++) {
        if (!base_execute(base, steps[version]))
            return false;
    }
    return (!older || tell_twins(base)) && base_execute(base, "PRAGMA user_version = " TEXT_OF(BASE_VERSION));
}
