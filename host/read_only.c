/* A base where nothing can be written: its file or its folder is write-protected. */
#include "moment.h"
#include "schema.h"
#include "statement.h"

#include <stdlib.h>
#include <string.h>
#include <sys/stat.h>

#define COPY_TRIES 10
#define READ_TRIES 200
#define READ_PAUSE (SECOND / 200)

static bool there(const struct base *base, const char *ending)
{
    char *name = base_beside(base, ending);
    struct stat about;
    bool is = stat(name, &about) == 0 && about.st_size > 0;

    free(name);
    return is;
}

/* Whether a log stands beside the base, in today's way or the old one: then the file alone isn't all of it. */
static bool has_log(const struct base *base)
{
    return there(base, "-wal") || there(base, "-journal");
}

/* SQLite's name for a file that nobody changes: it needs no files beside it. Bytes that mean something in such a name are escaped. */
static bool reach_unchanging(struct base *base)
{
    static const char before[] = "file:", after[] = "?immutable=1";
    struct bytes name = { NULL, 0, 0 };
    const char *at;
    bool right;

    bytes_add(&name, before, sizeof before - 1);
    for (at = base->file; *at; at++) {
        const char *escaped = *at == '?' ? "%3f" : *at == '#' ? "%23" : *at == '%' ? "%25" : NULL;
        bytes_add(&name, escaped ? escaped : at, escaped ? strlen(escaped) : 1);
    }
    bytes_add(&name, after, sizeof after); /* with its zero */
    right = base_reach(base, (const char *)name.at, SQLITE_OPEN_READONLY | SQLITE_OPEN_URI);
    bytes_free(&name);
    return right;
}

/* Puts a copy in the base's place, which goes away with us. */
static bool copy(struct base *base)
{
    sqlite3 *from = base->db;
    sqlite3_backup *copying;
    bool right;

    base->db = NULL;
    right = base_reach(base, "", SQLITE_OPEN_READWRITE | SQLITE_OPEN_CREATE);
    copying = right ? sqlite3_backup_init(base->db, "main", from, "main") : NULL;
    if (copying) {
        sqlite3_backup_step(copying, -1);
        right = sqlite3_backup_finish(copying) == SQLITE_OK || base_wrong(base);
    } else if (right) {
        right = base_wrong(base);
    }
    sqlite3_close(from);
    return right;
}

static bool same_file(const struct stat *a, const struct stat *b)
{
    return a->st_ino == b->st_ino && a->st_size == b->st_size && a->st_mtim.tv_sec == b->st_mtim.tv_sec
        && a->st_mtim.tv_nsec == b->st_mtim.tv_nsec;
}

/* Nobody tells such a reader that a session has begun, so it takes a copy at once, and again if the file has changed meanwhile,
 * whatever was read of it: half of a change looks like a broken file. */
static bool copy_unchanged(struct base *base)
{
    struct stat before, after;
    int tries;

    for (tries = 0; tries < COPY_TRIES && !has_log(base); tries++) {
        bool copied;

        if (stat(base->file, &before))
            return false;
        copied = reach_unchanging(base) && base_is(base, schema_version(base)) && copy(base);
        if (!stat(base->file, &after) && same_file(&before, &after) && !has_log(base))
            return copied;
    }
    return base_reach(base, base->file, SQLITE_OPEN_READONLY);
}

/* The log knows who reads and who writes. */
static int reach_version(struct base *base)
{
    return copy_unchanged(base) ? schema_version(base) : -1;
}

/* What may be otherwise a moment later: a session that ends just now takes the log away. */
static bool passes(int fault)
{
    return fault == SQLITE_CANTOPEN || fault == SQLITE_READONLY || fault == SQLITE_BUSY || fault == SQLITE_IOERR;
}

static bool is_fault(int code)
{
    return code != SQLITE_OK && code != SQLITE_ROW && code != SQLITE_DONE;
}

bool base_open_read_only(struct base *base)
{
    int version, tries = 0;

    base->quiet = true;
    while ((version = reach_version(base)) < 0 && passes(sqlite3_errcode(base->db)) && ++tries < READ_TRIES)
        moment_sleep(READ_PAUSE);
    base->quiet = false;
    if (version < 0 && is_fault(sqlite3_errcode(base->db)))
        return base_wrong(base);
    if (!base_is(base, version) || version == BASE_VERSION)
        return version == BASE_VERSION;
    return (sqlite3_db_readonly(base->db, "main") == 0 || copy(base)) && base_lift(base);
}
