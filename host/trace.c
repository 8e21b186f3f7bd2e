/* trace: the way of a message by its routing headers, from where it began; copies of one BID, or all that is named, side by side. */
#include "base.h"
#include "boxes.h"
#include "file.h"
#include "letter.h"
#include "route.h"
#include "show.h"
#include "text.h"

#include <stdio.h>
#include <stdlib.h>
#include <string.h>
#include <unistd.h>

/* The way of one message. */
struct way {
    char *title;        /* which message it is */
    bool packed;        /* its headers lie in what is packed */
    struct bytes head;  /* the body as far as its headers go */
    struct bytes hops;  /* struct fringemole_hop each, as they stand: the last one is where it began */
    size_t width;       /* of the longest mailbox, as it is shown */
};

struct trace {
    const struct options *options;
    const char *file, *box; /* where the next message is from: a file, or a box of the base */
    struct bytes ways;      /* struct way each */
};

/* ---- ways */

static size_t count_ways(const struct trace *trace)
{
    return trace->ways.n / sizeof(struct way);
}

static struct way *way_at(const struct trace *trace, size_t place)
{
    return (struct way *)(void *)trace->ways.at + place;
}

static size_t count_hops(const struct way *way)
{
    return way->hops.n / sizeof(struct fringemole_hop);
}

/* From the origin, which is 0. */
static struct fringemole_hop hop_at(const struct way *way, size_t place)
{
    return ((const struct fringemole_hop *)(const void *)way->hops.at)[count_hops(way) - 1 - place];
}

static struct part mailbox_of(const struct way *way, const struct fringemole_hop *hop)
{
    struct part mailbox = { way->head.at + hop->start, hop->end - hop->start };

    return mailbox;
}

static size_t columns_of(struct part text)
{
    char *shown = text_copy(text);
    size_t columns = strlen(shown);

    free(shown);
    return columns;
}

static void read_hops(struct way *way, struct part body)
{
    struct fringemole_hop hop = fringemole_route_next(body.at, body.n, 0);
    size_t end = 0, columns;

    for (; hop.found; hop = fringemole_route_next(body.at, body.n, hop.next)) {
        struct part mailbox = { body.at + hop.start, hop.end - hop.start };
        bytes_add(&way->hops, &hop, sizeof hop);
        columns = columns_of(mailbox);
        way->width = columns > way->width ? columns : way->width;
        end = hop.next;
    }
    bytes_add(&way->head, body.at, end < body.n ? end : body.n);
}

static void print_title(FILE *to, const struct trace *trace, const struct message *message)
{
    if (trace->box)
        fprintf(to, "%s %lld", trace->box, message->number);
    else
        fprintf(to, "%s, message %lld", trace->file, message->number);
    if (message->copy)
        fprintf(to, ", copy %lld", message->copy);
    fprintf(to, ", BID ");
    text_show(to, message->bid);
    fprintf(to, ", ");
    text_show(to, (struct part){ &message->type, 1 });
    fprintf(to, " from ");
    text_show(to, message->from);
    fprintf(to, " to ");
    text_show(to, message->to);
    putc('@', to);
    text_show(to, message->at);
    fprintf(to, ": ");
    text_show(to, message->form == PACKED_FILE ? message->name : message->title);
}

static bool take_message(void *context, const struct message *message)
{
    struct trace *trace = context;
    struct way way = { NULL, message->form != PLAIN_TEXT, { NULL, 0, 0 }, { NULL, 0, 0 }, sizeof "mailbox" - 1 };
    size_t n;
    FILE *to = open_memstream(&way.title, &n);

    if (to)
        print_title(to, trace, message);
    if (!to || fclose(to))
        give_up("no memory");
    if (!way.packed)
        read_hops(&way, message->body);
    bytes_add(&trace->ways, &way, sizeof way);
    return show_goes_on();
}

static void forget_ways(struct trace *trace)
{
    size_t i;

    for (i = 0; i < count_ways(trace); i++) {
        free(way_at(trace, i)->title);
        bytes_free(&way_at(trace, i)->head);
        bytes_free(&way_at(trace, i)->hops);
    }
    bytes_free(&trace->ways);
}

/* ---- tables */

static void show_origin(const struct way *way)
{
    struct fringemole_origin origin = fringemole_route_origin(way->head.at, way->head.n);
    unsigned long hops = (unsigned long)count_hops(way);

    if (way->packed) {
        puts("   packed: its routing headers lie in what is packed");
    } else if (!origin.found) {
        puts("   no routing header, so no origin");
    } else {
        printf("   began at ");
        text_show(stdout, (struct part){ way->head.at + origin.start, origin.end - origin.start });
        printf(", %lu hop%s\n", hops, hops == 1 ? "" : "s");
    }
}

static void show_hop(const struct way *way, size_t place)
{
    struct fringemole_hop hop;

    if (place >= count_hops(way)) {
        printf("%-27s%*s%9s", "", (int)way->width + 2, "", "");
        return;
    }
    hop = hop_at(way, place);
    printf("%04u-%02u-%02u %02u:%02u  %-9s", hop.year, hop.month, hop.day, hop.hour, hop.minute, hop.gmt ? "GMT" : "unknown");
    show_field(mailbox_of(way, &hop), way->width + 2);
    printf("%9lu", (unsigned long)hop.number);
}

/* Whether two ways have one and the same hop there, whichever form its header has. */
static bool same_hop(const struct way *a, const struct way *b, size_t place)
{
    struct fringemole_hop one, other;

    if (place >= count_hops(a) || place >= count_hops(b))
        return false;
    one = hop_at(a, place);
    other = hop_at(b, place);
    return part_same(mailbox_of(a, &one), mailbox_of(b, &other)) && one.number == other.number && one.year == other.year
        && one.month == other.month && one.day == other.day && one.hour == other.hour && one.minute == other.minute && one.gmt == other.gmt;
}

static void show_row(const struct trace *trace, size_t first, size_t last, size_t place)
{
    bool same = true;
    size_t i;

    printf("%5lu", (unsigned long)place + 1);
    for (i = first; i < last; i++) {
        printf("  ");
        show_hop(way_at(trace, i), place);
        same = same && (i == first || same_hop(way_at(trace, first), way_at(trace, i), place));
    }
    printf("%s%s\n", place ? "" : "  origin", same ? "" : "  differs");
}

static void show_head(const struct trace *trace, size_t first, size_t last)
{
    size_t i;

    printf("  hop");
    for (i = first; i < last; i++)
        printf("  %-18s%-9s%-*s%9s", "time", "zone", (int)way_at(trace, i)->width + 2, "mailbox", "number");
    putchar('\n');
}

/* These ways side by side, each from its origin down, so that what they share stands on top. */
static void show_table(const struct trace *trace, size_t first, size_t last)
{
    size_t i, rows = 0;

    for (i = first; i < last; i++) {
        if (last - first > 1)
            printf("%lu: ", (unsigned long)(i - first) + 1);
        puts(way_at(trace, i)->title);
        show_origin(way_at(trace, i));
        rows = count_hops(way_at(trace, i)) > rows ? count_hops(way_at(trace, i)) : rows;
    }
    if (rows)
        show_head(trace, first, last);
    for (i = 0; i < rows && show_goes_on(); i++)
        show_row(trace, first, last, i);
}

/* ---- what is named */

static enum exit_code bad(const struct trace *trace, long long place, const char *what)
{
    say("%s: message %lld: %s", trace->file, place, what);
    return BAD_FILE;
}

/* Line ends as import takes them. */
static enum exit_code take_letter(struct trace *trace, struct message *message)
{
    struct bytes air = { NULL, 0, 0 };
    const struct options *options = trace->options;
    bool plain = message->form == PLAIN_TEXT;

    if (plain && !options->text && !options->as_is && letter_has_lf_ends(message->body))
        return bad(trace, message->number, "its lines end with LF, and on the air with CR: trace it with --text (or --as-is)");
    if (plain && options->text) {
        letter_to_air(&air, message->body);
        message->body = part_all(&air);
    }
    take_message(trace, message);
    bytes_free(&air);
    return DONE;
}

static enum exit_code take_letters(struct trace *trace, struct part file)
{
    enum exit_code code = DONE;
    struct letter letter;
    long long place;

    if (file_fault(file))
        return bad(trace, 1, file_fault(file));
    for (place = 1; code == DONE && letter_follows(&file); place++) {
        const char *wrong = letter_read(&file, 0, &letter);
        letter.message.number = place;
        code = wrong ? bad(trace, place, wrong) : take_letter(trace, &letter.message);
    }
    return code;
}

static enum exit_code take_file(struct trace *trace, const char *name)
{
    struct bytes file = { NULL, 0, 0 };
    enum exit_code code = BAD_FILE;

    trace->file = name;
    trace->box = NULL;
    if (strcmp(name, "-") && access(name, F_OK)) {
        say("%s: no message of the base has this BID, and no file this name", name);
        return BAD_USAGE;
    }
    if (file_read(name, &file))
        code = take_letters(trace, part_all(&file));
    bytes_free(&file);
    return code;
}

/* What the base has of a BID comes before a file of that name. */
static enum exit_code take_word(struct trace *trace, struct base *base, const char *word, bool *in_base)
{
    size_t before = count_ways(trace);

    trace->box = "outbox";
    if (!base_each_of(base, OUTBOX, part_of(word), take_message, trace))
        return BAD_BASE;
    trace->box = "inbox";
    if (!base_each_of(base, INBOX, part_of(word), take_message, trace))
        return BAD_BASE;
    *in_base = count_ways(trace) > before;
    return *in_base ? DONE : take_file(trace, word);
}

/* One BID's messages, or all that several words name, side by side; those of a single file each by itself. */
static void show_ways(const struct trace *trace, bool together)
{
    size_t i, n = count_ways(trace), step = together && n ? n : 1;

    for (i = 0; i < n && show_goes_on(); i += step)
        show_table(trace, i, i + step);
    if (!n)
        puts("no messages");
}

enum exit_code boxes_trace(const struct options *options)
{
    struct trace trace = { options, NULL, NULL, { NULL, 0, 0 } };
    struct base *base = base_open(options->base, READING);
    enum exit_code code = base ? DONE : BAD_BASE;
    bool in_base = false;
    int i;

    for (i = 0; code == DONE && i < options->count; i++)
        code = take_word(&trace, base, options->arguments[i], &in_base);
    base_close(base);
    if (code == DONE)
        show_ways(&trace, in_base || options->count > 1);
    forget_ways(&trace);
    return code != DONE || show_goes_on() ? code : FAILED;
}
