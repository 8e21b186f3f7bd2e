#include "guest.h"
#include "login.h"
#include "partner.h"
#include "say.h"
#include "stop.h"

#include <poll.h>

#define LINE_ROOM 80       /* for a callsign or a password */
#define LONGEST_DELAY 3600 /* seconds */

/* Wrong callers wait, so that nobody tries many passwords. */
static bool turned_away(const struct options *options)
{
    struct pollfd wait = { stop_descriptor(), POLLIN, 0 };

    poll(&wait, 1, options->delay < LONGEST_DELAY ? (int)(options->delay * SECOND) : (int)(LONGEST_DELAY * SECOND));
    return false;
}

/* A line without its end. What a line ends with is CR, LF or both. False if it doesn't fit, or the link is over. */
static bool hear_line(struct link *link, uint8_t *line, struct part *text)
{
    uint8_t byte;
    size_t n = 0;

    while (n <= LINE_ROOM && link_read(link, &byte, 1, true) == 1) {
        if (byte == '\r' || byte == '\n') {
            link->after_cr = byte == '\r';
            *text = (struct part){ line, n };
            return true;
        }
        if (n < LINE_ROOM)
            line[n] = byte;
        n++;
    }
    return false;
}

static bool ask(struct link *link, const char *question, uint8_t *line, struct part *text)
{
    return link_write(link, part_of(question)) && hear_line(link, line, text);
}

/* A callsign with a dot before it asks for a transparent port; without, FF bytes are doubled. */
static bool is_transparent(struct part *call)
{
    bool dot = call->n && call->at[0] == '.';

    if (dot) {
        call->at++;
        call->n--;
    }
    return dot;
}

static bool admits(const struct options *options, const struct call *call, struct part password)
{
    struct base *base = base_open(options->base, READING);
    bool right = base && partner_admits(base, part_of(call->text), password) == 1;

    base_close(base);
    return right;
}

/* An unknown caller is asked for a password, too: who is a partner isn't told. */
bool guest_asked(struct link *link, const struct options *options, struct call *call)
{
    uint8_t line[LINE_ROOM], secret[LINE_ROOM];
    struct part name, password;
    bool named, transparent;

    link->secret = link->doubles = true;
    if (!ask(link, CALLSIGN_QUESTION, line, &name) || !ask(link, PASSWORD_QUESTION, secret, &password)) {
        say("a caller left before the login was over%s%s", link->over ? ": " : "", link->over ? link->over : "");
        return false;
    }
    transparent = is_transparent(&name);
    named = call_read(name, call);
    if (!admits(options, call, password) || !named) {
        say("a caller was turned away: no partner, or a wrong password");
        return turned_away(options);
    }
    link->secret = false;
    link->doubles = options->telnet || !transparent;
    return link_write(link, part_of("\r\n"));
}

bool guest_told(const struct options *options, struct call *call)
{
    struct base *base = base_open(options->base, READING);
    struct partner partner;
    bool right = base && call_read(part_of(options->from), call) && partner_find(base, part_of(call->text), &partner) == 1;

    base_close(base);
    if (right)
        return true;
    say("a caller was turned away: %s is no partner", options->from);
    return turned_away(options);
}

static bool take_expected(void *context, const struct partner *partner)
{
    bool *expected = context;

    *expected = *expected || partner->has_password;
    return true;
}

bool guest_expected(const struct options *options)
{
    struct base *base = base_open(options->base, READING);
    bool expected = false, right = base && partner_each(base, take_expected, &expected);

    base_close(base);
    return right && expected;
}
