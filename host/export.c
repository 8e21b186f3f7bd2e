/* export: a file a message, named by its BID, a copy of a BID by its number too. What is there already is never written to, and no link in
 * the folder is followed. A file is whole and on the disk before it gets its name. */
#include "base.h"
#include "boxes.h"
#include "forward.h"
#include "letter.h"
#include "stop.h"

#include <errno.h>
#include <fcntl.h>
#include <stdio.h>
#include <stdlib.h>
#include <string.h>
#include <sys/stat.h>
#include <unistd.h>

struct export {
    const char *path;
    int folder;
    struct base *base;
    enum box box;
    long written, there, different;
    bool failed;
};

/* Letters, digits, - and _ as they are, every other byte of the BID as %NN: so a dot is none of the BID's. */
static void name_file(struct bytes *name, const struct message *message)
{
    char text[40];
    size_t i;

    for (i = 0; i < message->bid.n; i++) {
        uint8_t b = message->bid.at[i];
        bool plain = (b >= '0' && b <= '9') || (b >= 'A' && b <= 'Z') || (b >= 'a' && b <= 'z') || b == '-' || b == '_';
        snprintf(text, sizeof text, plain ? "%c" : "%%%02X", b);
        bytes_add(name, text, strlen(text));
    }
    if (message->copy) {
        snprintf(text, sizeof text, ".copy-%lld", message->copy);
        bytes_add(name, text, strlen(text));
    }
    bytes_add(name, ".msg", sizeof ".msg");
}

/* ---- a file that is there */

enum found { NOTHING, THIS, SOMETHING_ELSE };

static enum found compare(int file, struct part letter, const char **what)
{
    uint8_t piece[4096];
    ssize_t n = 0;

    while ((n = read(file, piece, sizeof piece)) > 0 && (size_t)n <= letter.n && memcmp(piece, letter.at, (size_t)n) == 0) {
        letter.at += n;
        letter.n -= (size_t)n;
    }
    *what = n < 0 ? "it can't be read" : "another file has this name";
    return n == 0 && letter.n == 0 ? THIS : SOMETHING_ELSE;
}

static enum found look(const struct export *export, const char *name, struct part letter, const char **what)
{
    int file = openat(export->folder, name, O_RDONLY | O_NOFOLLOW | O_NONBLOCK | O_CLOEXEC);
    struct stat about;
    enum found found = SOMETHING_ELSE;

    if (file < 0) {
        *what = errno == ELOOP ? "a link has this name" : strerror(errno);
        return errno == ENOENT ? NOTHING : SOMETHING_ELSE;
    }
    if (fstat(file, &about) || !S_ISREG(about.st_mode))
        *what = "this name is no file's";
    else if (about.st_size == 0)
        *what = "an empty file has this name";
    else
        found = compare(file, letter, what);
    close(file);
    return found;
}

/* ---- a new file */

static bool write_all(int file, struct part bytes)
{
    while (bytes.n) {
        ssize_t n = write(file, bytes.at, bytes.n);
        if (n < 0 && errno != EINTR)
            return false;
        bytes.at += n > 0 ? n : 0;
        bytes.n -= n > 0 ? (size_t)n : 0;
    }
    return true;
}

/* A link takes no name that something has; where there are none, look has just seen that nothing has it. */
static bool give_name(int folder, const char *part, const char *name)
{
    if (linkat(folder, part, folder, name, 0))
        return errno != EEXIST && renameat(folder, part, folder, name) == 0;
    unlinkat(folder, part, 0);
    return true;
}

/* Under a name of this process first; what a killed one of the same number left goes away. */
static bool write_file(int folder, const char *name, struct part letter)
{
    char part[64];
    int file, fault;
    bool right;

    snprintf(part, sizeof part, "export-%ld.part", (long)getpid());
    unlinkat(folder, part, 0);
    file = openat(folder, part, O_WRONLY | O_CREAT | O_EXCL | O_NOFOLLOW | O_CLOEXEC, 0666);
    if (file < 0)
        return false;
    right = write_all(file, letter) && fsync(file) == 0;
    fault = errno;
    right = close(file) == 0 && right;
    if (right && give_name(folder, part, name))
        return true;
    fault = right ? errno : fault;
    unlinkat(folder, part, 0);
    errno = fault;
    return false;
}

/* ---- each message */

static void print_letter(const struct message *message, struct part had_by, char **text, size_t *n)
{
    FILE *to = open_memstream(text, n);
    bool right = to && letter_write(to, message, had_by);

    if (!to || fclose(to) || !right)
        give_up("no memory");
}

static bool export_letter(struct export *export, const char *name, struct part letter)
{
    const char *what = "";

    switch (look(export, name, letter, &what)) {
    case THIS:
        export->there++;
        return true;
    case SOMETHING_ELSE:
        say("%s/%s: %s; left as it is, and the message not exported", export->path, name, what);
        export->different++;
        return true;
    default:
        break;
    }
    if (write_file(export->folder, name, letter)) {
        export->written++;
        return true;
    }
    say("%s/%s: %s", export->path, name, strerror(errno));
    export->failed = true;
    return false;
}

static bool export_one(void *context, const struct message *message)
{
    struct export *export = context;
    struct bytes name = { NULL, 0, 0 }, had_by = { NULL, 0, 0 };
    char *text = NULL;
    size_t n = 0;
    bool right;

    if (stop_asked() || (export->box == OUTBOX && !forward_had_by(export->base, message->number, &had_by)))
        return false;
    name_file(&name, message);
    print_letter(message, part_all(&had_by), &text, &n);
    bytes_free(&had_by);
    right = export_letter(export, (const char *)name.at, (struct part){ (const uint8_t *)text, n });
    free(text);
    bytes_free(&name);
    return right;
}

/* The names are on the disk too when the count is said. */
static enum exit_code export_box(struct export *export)
{
    bool right = base_each(export->base, export->box, export_one, export);

    if (export->written && fsync(export->folder) && errno != EINVAL) {
        say("%s: %s", export->path, strerror(errno));
        export->failed = true;
    }
    say("%ld exported, %ld were there already", export->written, export->there);
    if (export->different)
        say("%ld not exported: something else has their name", export->different);
    return export->failed || export->different ? BAD_FILE : right ? DONE : BAD_BASE;
}

static enum exit_code export_to(struct export *export)
{
    bool made = mkdir(export->path, 0777) == 0;
    enum exit_code code = BAD_FILE;

    export->folder = made || errno == EEXIST ? open(export->path, O_RDONLY | O_DIRECTORY | O_CLOEXEC) : -1;
    if (export->folder < 0) {
        say("%s: %s", export->path, strerror(errno));
    } else {
        code = export_box(export);
        close(export->folder);
    }
    if (made && code != DONE && !export->written)
        rmdir(export->path);
    return code;
}

enum exit_code boxes_export(const struct options *options)
{
    struct base *base = base_open(options->base, READING);
    struct export export = { options->arguments[0], -1, base, options->outbox ? OUTBOX : INBOX, 0, 0, 0, false };
    enum exit_code code = base ? export_to(&export) : BAD_BASE;

    base_close(base);
    return code;
}
