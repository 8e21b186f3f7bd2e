#include "session.h"
#include "heard.h"
#include "history.h"
#include "lend.h"
#include "level.h"
#include "offset.h"
#include "panel.h"
#include "reason.h"
#include "refusal.h"
#include "rest.h"

#include <string.h>

/* How much is given before we look whether the partner says something: a whole turn, or a piece of a transfer. */
#define PIECE 1024

/* The library knows whether a session has ended: a receive of no bytes then answers so, and else changes nothing. */
static bool has_ended(const struct shelf *shelf)
{
    return fringemole_receive_in(&shelf->lent, NULL, 0).answer == FRINGEMOLE_ENDED;
}

/* One session under way. */
struct session {
    struct base *base;
    struct link *link;
    struct shelf shelf;
    struct passage passage;
    struct heard heard;     /* the partner's line under way */
    struct reason reason;   /* why the partner gives up */
    struct history history; /* the row that tells of it */
    bool blank_offset;
    const struct session_terms *terms;
    /* Until the partner's SID has shown the level: what it said, and how much we have. */
    bool level_shown;
    struct bytes before;
    size_t greeted;
    struct rest rest; /* what the partner asks for */
    bool panel_shown;
    struct panel panel; /* as it was shown last */
};

/* Something else than progress and transcript is said next. */
static void end_lines(struct session *session)
{
    progress_end(&session->link->progress);
    transcript_end_line(&session->link->transcript);
}

/* How it ended, for the operator and for its row. */
static enum exit_code ended(struct session *session, const char *how, enum exit_code code)
{
    end_lines(session);
    session->history.ending = part_of(how);
    return code;
}

/* The front panel, if somebody watches and it isn't what was shown last. */
static void show_panel(struct session *session)
{
    struct panel now = panel_read(session->shelf.session);

    if (!session->terms->panel || (session->panel_shown && panel_same(&now, &session->panel)))
        return;
    end_lines(session);
    panel_say(&now);
    session->panel = now;
    session->panel_shown = true;
}

/* The partner's reason, if it told one, to the operator; and to the row, instead of this line. */
static void note_line(struct session *session, struct part line)
{
    struct part reason = { session->reason.line, session->reason.n };

    session->history.line = reason.n ? reason : line;
    reason_tell(&session->reason);
}

/* What it changed is saved. We say why; if it is the partner's reason that was refused, that is heard to its end; then we hang up. */
static enum exit_code refused(struct session *session, unsigned number, struct part come)
{
    enum exit_code code;

    patience_part(&session->link->patience);
    reason_say(session->link, &session->shelf.lent);
    reason_hear(&session->reason, session->link, &session->heard, number, come);
    code = ended(session, "refused", REFUSED);
    session->history.refusal = number;
    say("refusal %u: %s", number, refusal_words(number));
    note_line(session, heard_line(&session->heard));
    return code;
}

/* In a transfer a line that begins with *** may be the sender's text. */
static enum exit_code dropped(struct session *session, const char *how)
{
    if (session->shelf.session[FRINGEMOLE_SESSION_PHASE] != FRINGEMOLE_TRANSFER_PHASE)
        reason_last(&session->reason, &session->heard);
    if (session->link->left_until_drop == 0)
        how = "--drop-after";
    else if (session->link->over)
        how = session->link->over;
    else if (port_end(&session->link->port))
        how = port_end(&session->link->port);
    ended(session, how, LINK_DROPPED);
    say("the link dropped: %s", how);
    note_line(session, part_of(""));
    return LINK_DROPPED;
}

/* Before a byte of another transfer goes. Those that it has deferred stand behind the others at the next call. */
static enum exit_code asked_for_rest(struct session *session)
{
    ended(session, "asked for the rest of a message", LINK_DROPPED);
    say("the partner asks for the rest of a message that was cut before, and would take the next one for it; we hang up before that: call again");
    return LINK_DROPPED;
}

static enum exit_code not_saved(struct session *session)
{
    return ended(session, "the base took no change", BAD_BASE);
}

/* Receives bytes of the partner, with zeros for the blanks of an offset. Outside transfers they go at once, else one by one. */
static struct fringemole_reply receive_padded(const struct shelf *shelf, struct part bytes)
{
    struct fringemole_reply reply = { FRINGEMOLE_OK, 0, 0 };
    size_t n = 0, count = 0;

    /* Bytes are left over where a refusal or FQ ended the session. */
    while (reply.count == n && reply.answer == FRINGEMOLE_OK && count < bytes.n) {
        bool one = offset_may_begin(shelf->session);
        uint8_t byte = offset_digit(shelf->session, bytes.at[count]);
        n = one ? 1 : bytes.n - count;
        reply = fringemole_receive_in(&shelf->lent, one ? &byte : bytes.at + count, n);
        count += reply.count;
    }
    reply.count = count;
    return reply;
}

static struct fringemole_reply receive(const struct session *session, struct part bytes)
{
    return session->blank_offset ? receive_padded(&session->shelf, bytes) : fringemole_receive_in(&session->shelf.lent, bytes.at, bytes.n);
}

/* ---- the level of packed texts */

static bool lend_for(struct session *session, uint8_t level, bool again)
{
    const struct session_terms *its = session->terms;
    struct lend_terms terms = { its->role, { its->partner, level }, its->place, its->room, its->mailbox, again };

    return lend(&session->shelf, session->base, &terms);
}

/* The session anew, with packed texts in the form of this level: of what we say the greeting has been said, and what the partner said is
 * heard again. Nothing else has been said or changed yet. */
static bool start_again(struct session *session, uint8_t level, struct fringemole_reply *reply)
{
    uint8_t said[PIECE];

    if (!lend_for(session, level, true))
        return false;
    fringemole_give_in(&session->shelf.lent, said, session->greeted, 0);
    *reply = receive(session, part_all(&session->before));
    return true;
}

/* The first bytes of the partner, up to its SID, which have been received. A packed text on the shelf has the form of one level: where the SIDs
 * come to the other, nothing is given before that is set right. */
static bool hear_level(struct session *session, struct part bytes, struct fringemole_reply *reply)
{
    const uint8_t *memory = session->shelf.session;
    size_t earlier = session->before.n;
    uint8_t level;

    bytes_add(&session->before, bytes.at, bytes.n);
    if (memory[FRINGEMOLE_SESSION_PHASE] <= FRINGEMOLE_LAST_SID_PHASE || reply->answer != FRINGEMOLE_OK)
        return true;
    level = level_in_force(memory);
    session->level_shown = true;
    session->history.level = level;
    if (level == session->shelf.level)
        return true;
    if (!start_again(session, level, reply))
        return false;
    reply->count -= earlier;
    return true;
}

/* Takes bytes of the partner. What changed is on the disk when it answers. */
static enum exit_code take(struct session *session, struct part bytes, bool *over)
{
    struct fringemole_reply reply;
    struct part come;

    rest_hear(&session->rest, session->shelf.session, bytes);
    reply = receive(session, bytes);
    *over = true;
    if (!session->level_shown && !hear_level(session, bytes, &reply))
        return ended(session, "nothing can be lent", BAD_BASE);
    come = (struct part){ bytes.at + reply.count, bytes.n - reply.count };
    bytes.n = reply.count;
    heard_add(&session->heard, bytes);
    if (!shelf_save(&session->shelf, session->base, &session->passage))
        return not_saved(session);
    show_panel(session);
    if (reply.answer != FRINGEMOLE_OK)
        return refused(session, reply.answer, come);
    if (rest_is_asked(&session->rest, session->shelf.session))
        return asked_for_rest(session);
    *over = false;
    return DONE;
}

/* Gives, writes, reads, receives, until the end. What a receive changed is on the disk before the next byte is given. */
static enum exit_code converse(struct session *session)
{
    struct link *link = session->link;
    uint8_t out[PIECE], in[PIECE];
    bool speaking = false, over = false;

    for (;;) {
        struct fringemole_reply given = fringemole_give_in(&session->shelf.lent, out, sizeof out, 0);
        enum exit_code code;
        long n;
        if (given.answer != FRINGEMOLE_OK)
            return refused(session, given.answer, part_of(""));
        patience_watch(&link->patience, session->shelf.session, given.count > 0 && !speaking);
        session->greeted += session->level_shown ? 0 : given.count;
        speaking = given.count == sizeof out;
        if (given.count && !link_write(link, (struct part){ out, given.count }))
            return dropped(session, "the partner is gone");
        if (has_ended(&session->shelf)) /* and if the FQ was ours, the partner should have it */
            return !given.count || link_settle(link) ? ended(session, "FQ", DONE) : dropped(session, "the partner is gone");
        n = link_read(link, in, sizeof in, !speaking);
        if (n == PORT_GONE || link->over)
            return dropped(session, "the partner is gone");
        if (n == PORT_SILENT)
            continue;
        code = take(session, (struct part){ in, (size_t)n }, &over);
        if (over)
            return code;
    }
}

/* What the session did, to its row and to the operator. */
static bool sum_up(struct session *session)
{
    struct history *history = &session->history;
    struct receiver to = { session->terms->partner, session->shelf.level };
    struct panel panel = panel_read(session->shelf.session);
    long long waiting = 0;

    history->panel = panel;
    history->kept = session->shelf.kept;
    history->sent = session->link->sent;
    history->received = session->link->received;
    if (!base_count_waiting(session->base, &to, &waiting))
        return false;
    say("%lu forwarded, %lu declined, %lld still waiting; %lu kept; %lu bytes sent, %lu received", panel.forwarded, panel.declined, waiting,
        history->kept, history->sent, history->received);
    panel_say(&panel);
    return true;
}

/* A session that ended by FQ has offered all that its partner can take: what is left, and wasn't deferred, has another form. */
static void say_unoffered(const struct session *session)
{
    size_t plain = 0, packed = 0;
    struct receiver to = { session->terms->partner, session->shelf.level };
    long long too_long = 0;

    shelf_unoffered(&session->shelf, &plain, &packed);
    if (plain)
        say("waiting for a partner without B in its SID: %lu (plain)", (unsigned long)plain);
    if (packed)
        say("waiting for a partner with B in its SID: %lu (packed)", (unsigned long)packed);
    if (base_count_too_long(session->base, &to, &too_long) && too_long)
        say("waiting for a partner at level 0: %lld (packed, and with two check bytes over 65,535 bytes)", too_long);
}

/* The row's end and what was deferred, in one transaction. */
static bool close_row(struct session *session)
{
    if (!base_begin(session->base))
        return false;
    if (shelf_save_deferred(&session->shelf, session->base, &session->passage) && history_end(session->base, &session->history)
        && base_commit(session->base))
        return true;
    base_undo(session->base);
    return false;
}

static enum exit_code run(struct session *session, const struct session_terms *terms)
{
    enum exit_code code;
    uint8_t level = 0;

    session->terms = terms;
    session->history.level = -1;
    if (!history_level(session->base, terms->partner, &level) || !lend_for(session, level, false)
        || !history_begin(session->base, terms->partner, terms->role, &session->history.number))
        return BAD_BASE;
    session->passage.session = session->history.number;
    session->passage.partner = terms->partner;
    session->blank_offset = terms->blank_offset;
    show_panel(session);
    code = converse(session);
    if (!sum_up(session) || !close_row(session))
        return BAD_BASE;
    if (code == DONE)
        say_unoffered(session);
    return code;
}

enum exit_code session_run(struct base *base, struct link *link, const struct session_terms *terms)
{
    struct session session;
    enum exit_code code;

    memset(&session, 0, sizeof session);
    session.base = base;
    session.link = link;
    code = run(&session, terms);
    shelf_clear(&session.shelf);
    bytes_free(&session.before);
    rest_free(&session.rest);
    return code;
}
