/* import: all messages of all files, or, if one of them is bad, none; but one whose BID is in the base already is passed over.
 * All files are read first, so that the base is changed in one short transaction, beside a session too. */
#include "base.h"
#include "boxes.h"
#include "fault.h"
#include "file.h"
#include "forward.h"
#include "letter.h"
#include "level.h"
#include "text.h"

#include <stdio.h>
#include <stdlib.h>

struct import {
    struct base *base;
    bool text, as_is;
    uint8_t level; /* of packed texts that don't say theirs */
    struct part for_whom;    /* callsigns; empty: by the rule */
    struct part has_already; /* of the message under way: callsigns */
    const char *file;
    int place; /* of the message in the file, from 1 */
    long count, there, clashing;
};

static enum exit_code bad(const struct import *import, const char *what)
{
    say("%s: message %d: %s", import->file, import->place, what);
    return BAD_FILE;
}

/* ---- one message */

/* For whom it waits, and who has it. */
static enum exit_code direct(struct import *import, long long number)
{
    struct part wrong = part_of("");

    if (!(import->for_whom.n ? forward_to(import->base, number, import->for_whom, &wrong) : forward_by_rule(import->base, number)))
        return BAD_BASE;
    if (wrong.n) {
        say("--for: %.*s is no partner of the base", (int)wrong.n, (const char *)wrong.at);
        return BAD_USAGE;
    }
    return forward_is_at(import->base, number, import->has_already) ? DONE : BAD_BASE;
}

static enum exit_code add(struct import *import, const struct message *message)
{
    const char *fault = message_fault(message);
    long long number = 0;
    enum exit_code code;

    fault = fault ? fault : level_fault(message);
    if (fault)
        return bad(import, fault);
    if (!base_add(import->base, message, &number))
        return BAD_BASE;
    code = direct(import, number);
    import->count++;
    return code;
}

/* Somebody must hear of another message of that BID, and of a BID that came in another spelling than the base has. */
static void say_passed_over(const struct import *import, struct part came, struct part stored, bool another)
{
    bool respelled = !part_same(came, stored);
    char *as = text_copy(stored);

    if (respelled || another)
        say("%s: message %d: its BID is in the base already%s%s%s; passed over", import->file, import->place, respelled ? ", as " : "",
            respelled ? as : "", another ? ", with another message" : "");
    free(as);
}

/* A message whose BID is known isn't taken. */
static enum exit_code pass_over(struct import *import, const struct message *message)
{
    struct bytes stored = { NULL, 0, 0 };
    int has = base_spelling(import->base, message->bid, &stored) ? base_has(import->base, message) : -1;

    if (has >= 0)
        say_passed_over(import, message->bid, part_all(&stored), !has);
    bytes_free(&stored);
    if (has < 0)
        return BAD_BASE;
    ++*(has ? &import->there : &import->clashing);
    return DONE;
}

/* 003: "a generated BID have the form nnn_BBS". The next number whose BID is free; when a BID has no room for more digits they begin
 * again. */
static enum exit_code make_bid(struct import *import, struct part call, struct bytes *bid)
{
    long long number, limit = 1, tries;
    size_t digits;
    int known = 1;

    for (digits = 1 + call.n; digits < FRINGEMOLE_MAX_BID; digits++)
        limit *= 10;
    if (!base_next(import->base, &number))
        return BAD_BASE;
    for (tries = 0; known > 0 && tries < limit; tries++, number++) {
        char text[32];
        int n = snprintf(text, sizeof text, "%lld_", number % limit);
        bid->n = 0;
        bytes_add(bid, text, (size_t)n);
        bytes_add(bid, call.at, call.n);
        known = base_knows(import->base, part_all(bid));
    }
    return known < 0 ? BAD_BASE : known ? bad(import, "no BID, and every number is taken") : DONE;
}

static enum exit_code add_without_bid(struct import *import, struct message *message)
{
    struct bytes bid = { NULL, 0, 0 }, call = { NULL, 0, 0 };
    enum exit_code code = BAD_BASE;

    if (base_call(import->base, &call))
        code = call.n ? make_bid(import, part_all(&call), &bid)
                      : bad(import, "no BID, and the base has no callsign to make one (init --call)");
    if (code == DONE) {
        message->bid = part_all(&bid);
        code = add(import, message);
    }
    message->bid = part_of("");
    bytes_free(&bid);
    bytes_free(&call);
    return code;
}

/* ---- a letter: the message and its copies */

/* The copies for cc get BIDs of their own. */
static enum exit_code add_copies(struct import *import, const struct letter *letter)
{
    struct part list = letter->cc;
    enum exit_code code = DONE;

    while (code == DONE && list.n) {
        struct message copy = letter->message;
        bool right = letter_address(part_until(&list, ','), &copy.to, &copy.at);
        code = right ? add_without_bid(import, &copy) : bad(import, "cc is not CALL@MAILBOX");
    }
    return code;
}

/* Nobody has the copies, whoever has the message: they wait, or are held with it. */
static enum exit_code add_message(struct import *import, const struct letter *letter)
{
    struct message message = letter->message;
    enum exit_code code;
    int known;

    known = message.bid.n ? base_knows(import->base, message.bid) : 0;
    if (known)
        return known < 0 ? BAD_BASE : pass_over(import, &message);
    import->has_already = letter->forwarded_to;
    code = message.bid.n ? add(import, &message) : add_without_bid(import, &message);
    import->has_already = part_of("");
    return code == DONE ? add_copies(import, letter) : code;
}

/* Bytes of a packed body are no line ends, whichever they are. */
static enum exit_code add_letter(struct import *import, struct letter *letter)
{
    struct bytes air = { NULL, 0, 0 };
    struct message *message = &letter->message;
    bool plain = message->form == PLAIN_TEXT;
    enum exit_code code;

    if (plain && !import->text && !import->as_is && letter_has_lf_ends(message->body))
        return bad(import, "its lines end with LF, and on the air with CR: import it with --text (with --as-is it goes out as it stands)");
    if (plain && import->text) {
        bool announced = message->size != message->body.n;
        letter_to_air(&air, message->body);
        message->body = part_all(&air);
        message->size = announced ? message->size : (uint32_t)air.n;
    }
    code = add_message(import, letter);
    bytes_free(&air);
    return code;
}

/* ---- files */

static enum exit_code add_all(struct import *import, struct part file)
{
    enum exit_code code = DONE;
    struct letter letter;

    import->place = 1;
    if (file_fault(file))
        return bad(import, file_fault(file));
    for (; code == DONE && letter_follows(&file); import->place++) {
        const char *wrong = letter_read(&file, import->level, &letter);
        code = wrong ? bad(import, wrong) : add_letter(import, &letter);
    }
    return code;
}

/* The base is opened when all of them are read: standard input may take its time. */
static enum exit_code add_files(struct import *import, const struct options *options, const struct bytes *files)
{
    enum exit_code code = BAD_BASE;
    int i;

    import->base = base_open(options->base, CHANGING);
    if (import->base && base_begin(import->base)) {
        code = DONE;
        for (i = 0; code == DONE && i < options->count; i++) {
            import->file = options->arguments[i];
            code = add_all(import, part_all(&files[i]));
        }
        if (code == DONE && !base_commit(import->base))
            code = BAD_BASE;
        if (code != DONE)
            base_undo(import->base);
    }
    base_close(import->base);
    return code;
}

static enum exit_code sum_up(const struct import *import)
{
    say("%ld imported", import->count);
    if (import->there)
        say("%ld in the base already", import->there);
    if (import->clashing)
        say("%ld passed over: another message has their BID", import->clashing);
    return import->clashing ? BAD_FILE : DONE;
}

enum exit_code boxes_import(const struct options *options)
{
    struct import import = { NULL, options->text, options->as_is, (uint8_t)options->level, part_of(options->for_whom), part_of(""), NULL, 0, 0, 0, 0 };
    struct bytes *files = calloc((size_t)options->count, sizeof *files);
    enum exit_code code = DONE;
    int i;

    if (!files)
        give_up("no memory");
    for (i = 0; code == DONE && i < options->count; i++)
        code = file_read(options->arguments[i], &files[i]) ? DONE : BAD_FILE;
    if (code == DONE)
        code = add_files(&import, options, files);
    if (code == DONE)
        code = sum_up(&import);
    for (i = 0; i < options->count; i++)
        bytes_free(&files[i]);
    free(files);
    return code;
}
