#include "link.h"
#include "stop.h"

#include <string.h>

void link_start(struct link *link, const struct port *port, const struct options *options)
{
    memset(link, 0, sizeof *link);
    link->port = *port;
    link->doubles = options->telnet;
    link->left_until_drop = options->drop_after;
    patience_start(&link->patience, options);
}

void link_keep(struct link *link)
{
    link->early_end -= link->early_at;
    memmove(link->early, link->early + link->early_at, link->early_end);
    link->early_at = 0;
    link->kept_telnet = link->telnet;
    link->kept_after_cr = link->after_cr;
    link->keeps = true;
}

void link_rewind(struct link *link, const struct options *options)
{
    link->telnet = link->kept_telnet;
    link->after_cr = link->kept_after_cr;
    link->early_at = 0;
    link->keeps = false;
    link->left_until_drop = options->drop_after;
    link->sent = link->received = 0;
    link->port.heard_at = link->port.left_at = moment_now();
    patience_start(&link->patience, options);
}

void link_end(struct link *link)
{
    bytes_free(&link->told);
}

/* Counts bytes that pass, and says how many of n may. */
static size_t let_pass(struct link *link, size_t n)
{
    if (link->left_until_drop < 0)
        return n;
    if ((uint64_t)link->left_until_drop < n)
        n = (size_t)link->left_until_drop;
    link->left_until_drop -= (int64_t)n;
    return n;
}

static void note(struct link *link, bool ours, struct part bytes)
{
    *(ours ? &link->sent : &link->received) += bytes.n;
    if (!link->secret)
        transcript_add(&link->transcript, ours, bytes);
    progress_add(&link->progress, ours, bytes.n);
}

/* Looks at port and limits; false if the link is over. */
static bool goes_on(struct link *link)
{
    bool carrier = port_look(&link->port);

    patience_look(&link->patience, &link->port);
    link->over = stop_asked() ? stop_name() : carrier ? patience_over(&link->patience, &link->port) : "the carrier is lost";
    return !link->over;
}

/* Waits for early bytes and adds them to those that are kept. */
static long hear(struct link *link, bool wait)
{
    long n;

    if (!link->keeps)
        link->early_at = link->early_end = 0;
    if (link->early_end == sizeof link->early) {
        link->over = "too many bytes before a SID";
        return PORT_SILENT;
    }
    do {
        n = port_read(&link->port, link->early + link->early_end, sizeof link->early - link->early_end,
            wait ? patience_left(&link->patience, &link->port) : 0);
        if (n == PORT_GONE)
            return n;
        if (wait && !goes_on(link))
            return PORT_SILENT;
    } while (wait && n == PORT_SILENT);
    link->early_end += (size_t)n;
    return n;
}

/* Moves early bytes to a reader: without telnet's commands, and without the LF of a line that is over. */
static size_t take_early(struct link *link, uint8_t *into, size_t room)
{
    size_t n = link->early_end - link->early_at;

    if (n > room)
        n = room;
    memcpy(into, link->early + link->early_at, n);
    link->early_at += n;
    if (link->doubles)
        n = telnet_undouble(&link->telnet, into, n);
    if (n && link->after_cr) {
        link->after_cr = false;
        if (into[0] == '\n')
            memmove(into, into + 1, --n);
    }
    return n;
}

long link_read(struct link *link, uint8_t *into, size_t room, bool wait)
{
    struct part heard = { into, 0 };

    if (link->left_until_drop == 0)
        return PORT_GONE;
    /* A portion may hold nothing but telnet's commands. */
    while (!heard.n) {
        if (link->early_at == link->early_end) {
            long n = hear(link, wait);
            if (n <= 0)
                return n;
        }
        heard.n = take_early(link, into, room);
    }
    heard.n = let_pass(link, heard.n);
    note(link, false, heard);
    return (long)heard.n;
}

void link_unread(struct link *link)
{
    link->early_at--;
    link->received--;
}

static bool write_all(struct link *link, struct part bytes)
{
    while (bytes.n) {
        long n = port_write(&link->port, bytes, patience_left(&link->patience, &link->port));
        if (n == PORT_GONE || !goes_on(link))
            return false;
        bytes.at += n;
        bytes.n -= (size_t)n;
    }
    return true;
}

/* Takes off what the partner has been told already; false if that was something else. */
static bool pass_over(struct link *link, struct part *bytes)
{
    size_t n = link->told.n < bytes->n ? link->told.n : bytes->n;

    if (!n || link->keeps)
        return true;
    if (memcmp(link->told.at, bytes->at, n))
        return false;
    link->told.n -= n;
    memmove(link->told.at, link->told.at + n, link->told.n);
    bytes->at += n;
    bytes->n -= n;
    return true;
}

bool link_write(struct link *link, struct part bytes)
{
    struct bytes doubled = { NULL, 0, 0 };
    bool right;

    bytes.n = let_pass(link, bytes.n);
    note(link, true, bytes);
    if (link->keeps)
        bytes_add(&link->told, bytes.at, bytes.n);
    if (!pass_over(link, &bytes))
        return false;
    if (link->doubles) {
        telnet_double(&doubled, bytes);
        bytes = part_all(&doubled);
    }
    right = write_all(link, bytes) && link->left_until_drop != 0;
    bytes_free(&doubled);
    return right;
}

bool link_settle(struct link *link)
{
    long settled;

    while ((settled = port_settle(&link->port, patience_left(&link->patience, &link->port))) == PORT_SILENT) {
        if (!goes_on(link))
            return false;
    }
    return settled != PORT_GONE;
}
