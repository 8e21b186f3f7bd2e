/* A base is made, opened, locked and closed. */
#define _XOPEN_SOURCE 700 /* realpath */
#include "base.h"
#include "forward.h"
#include "partner.h"
#include "say.h"
#include "schema.h"
#include "statement.h"

#include <errno.h>
#include <fcntl.h>
#include <stdlib.h>
#include <string.h>
#include <sys/stat.h>
#include <unistd.h>

#define BUSY_MILLISECONDS 10000 /* how long a change of another process, which is short, is waited for */
#define OWNER_ONLY 0600

/* Of a file that is there. Links are followed here, once: the files beside the base stand where the base does. */
static struct base *base_on(const char *path)
{
    struct base *base = calloc(1, sizeof *base);

    if (!base)
        give_up("no memory");
    base->path = path;
    base->session_lock = -1;
    base->file = realpath(path, NULL);
    if (base->file)
        return base;
    say("%s: %s", path, strerror(errno));
    free(base);
    return NULL;
}

bool base_reach(struct base *base, const char *file, int flags)
{
    sqlite3_close(base->db);
    base->db = NULL;
    if (sqlite3_open_v2(file, &base->db, flags, NULL) != SQLITE_OK)
        return base_wrong(base);
    sqlite3_busy_timeout(base->db, BUSY_MILLISECONDS);
    return true;
}

void base_close(struct base *base)
{
    if (base) {
        sqlite3_close(base->db);
        if (base->session_lock >= 0)
            close(base->session_lock);
        free(base->file);
        free(base);
    }
}

/* With a write-ahead log readers and one writer don't wait for each other; where the file system can't do that, changes are short. EXTRA
 * is FULL (a commit stands after a power cut), and in the old journal's way syncs the folder too. */
static bool settle(struct base *base)
{
    sqlite3_exec(base->db, "PRAGMA journal_mode = WAL", NULL, NULL, NULL);
    return base_execute(base, "PRAGMA synchronous = EXTRA");
}

/* All steps in one transaction; another process may have taken them while we waited for it. */
bool base_lift(struct base *base)
{
    int version;

    if (!base_execute(base, "BEGIN EXCLUSIVE"))
        return false;
    version = schema_version(base);
    if (version >= 0 && schema_lift(base, version) && base_commit(base))
        return true;
    base_undo(base);
    return false;
}

bool base_is(struct base *base, int version)
{
    if (version == 0)
        say("%s: this file is no message base", base->path);
    return version > 0;
}

static bool open_for_changes(struct base *base)
{
    int version;

    if (!base_reach(base, base->file, SQLITE_OPEN_READWRITE) || !base_execute(base, "PRAGMA synchronous = EXTRA"))
        return false;
    version = schema_version(base);
    return base_is(base, version) && (version == BASE_VERSION || base_lift(base)) && settle(base);
}

/* ---- opening */

char *base_beside(const struct base *base, const char *ending)
{
    struct bytes name = { NULL, 0, 0 };

    bytes_add(&name, base->file, strlen(base->file));
    bytes_add(&name, ending, strlen(ending) + 1);
    return (char *)name.at;
}

/* Whether the base can be changed: its file, and its folder for the files beside it. */
static bool can_change(const struct base *base)
{
    char *folder = base_beside(base, "");
    bool can;

    strrchr(folder, '/')[1] = 0;
    can = access(base->file, W_OK) == 0 && access(folder, W_OK | X_OK) == 0;
    free(folder);
    return can;
}

struct base *base_open(const char *path, enum base_use use)
{
    struct base *base;
    bool right;

    if (access(path, R_OK)) {
        say("%s: %s%s", path, strerror(errno), errno == ENOENT ? "; make a base with init" : "");
        return NULL;
    }
    base = base_on(path);
    if (!base)
        return NULL;
    if (can_change(base)) {
        right = open_for_changes(base);
    } else if (use == CHANGING) {
        say("%s: this base can only be read: its file or its folder is write-protected", path);
        right = false;
    } else {
        right = base_open_read_only(base);
    }
    if (right && (use == CHANGING || base_execute(base, "BEGIN")))
        return base;
    base_close(base);
    return NULL;
}

bool base_lock_session(struct base *base)
{
    char *name = base_beside(base, "-session");
    struct flock whole;
    int lock = open(name, O_RDWR | O_CREAT | O_CLOEXEC | O_NOFOLLOW, OWNER_ONLY);
    bool right;

    memset(&whole, 0, sizeof whole);
    whole.l_type = F_WRLCK;
    whole.l_whence = SEEK_SET;
    right = lock >= 0 && fcntl(lock, F_SETLK, &whole) == 0;
    if (!right && lock >= 0 && (errno == EACCES || errno == EAGAIN))
        say("%s: the base is in use by another session", base->path);
    else if (!right)
        say("%s: %s", name, strerror(errno));
    if (!right && lock >= 0)
        close(lock);
    else
        base->session_lock = lock;
    free(name);
    return right;
}

/* ---- making */

/* The partner may call, and has the first place. */
static bool begin_with(struct base *base, const char *partner)
{
    uint8_t place;

    return !*partner || (partner_set(base, part_of(partner), part_of("")) && forward_join(base, part_of(partner), &place));
}

static bool fill_new(struct base *base, const char *call, const char *partner)
{
    int version;

    if (!base_reach(base, base->file, SQLITE_OPEN_READWRITE) || !base_execute(base, "PRAGMA synchronous = EXTRA")
        || !base_execute(base, "BEGIN EXCLUSIVE"))
        return false;
    version = schema_version(base);
    if (version > 0)
        say("%s: there is a base already", base->path);
    return version == 0 && schema_lift(base, version) && base_set_station(base, part_of(call), part_of(partner))
        && begin_with(base, partner) && base_commit(base) && settle(base);
}

/* What an init that was killed has left, an empty file or one that SQLite takes back to that, is filled by the next. */
bool base_make(const char *path, const char *call, const char *partner)
{
    int file = open(path, O_RDWR | O_CREAT | O_CLOEXEC, OWNER_ONLY);
    struct stat about;
    struct base *base;
    bool right;

    if (file < 0 || fstat(file, &about) || (about.st_size == 0 && fchmod(file, OWNER_ONLY))) {
        say("%s: %s", path, strerror(errno));
        if (file >= 0)
            close(file);
        return false;
    }
    close(file);
    base = base_on(path);
    right = base && fill_new(base, call, partner);
    base_close(base);
    return right;
}

/* ---- transactions */

bool base_begin(struct base *base)
{
    return base_execute(base, "BEGIN IMMEDIATE");
}

bool base_commit(struct base *base)
{
    return base_execute(base, "COMMIT");
}

void base_undo(struct base *base)
{
    sqlite3_exec(base->db, "ROLLBACK", NULL, NULL, NULL);
}
