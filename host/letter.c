#include "letter.h"
#include "level.h"

#include <string.h>

/* ---- lines of a file */

/* How many bytes the line end at the front has: CR LF, CR or LF; 0 if there is none. */
static size_t line_end(struct part bytes)
{
    if (bytes.n && bytes.at[0] == '\r')
        return bytes.n > 1 && bytes.at[1] == '\n' ? 2 : 1;
    return bytes.n && bytes.at[0] == '\n';
}

static void skip(struct part *bytes, size_t n)
{
    bytes->at += n;
    bytes->n -= n;
}

static struct part take_line(struct part *file)
{
    struct part line = { file->at, 0 };

    while (file->n && !line_end(*file)) {
        skip(file, 1);
        line.n++;
    }
    skip(file, line_end(*file));
    return line;
}

#define EX "/EX"
#define EX_LENGTH (sizeof EX - 1)

/* How many bytes /EX and its line end have; 0 if they don't stand at the front. The file's end is a line end here. */
static size_t end_mark(struct part bytes)
{
    if (bytes.n < EX_LENGTH || memcmp(bytes.at, EX, EX_LENGTH))
        return 0;
    skip(&bytes, EX_LENGTH);
    return bytes.n == 0 ? EX_LENGTH : line_end(bytes) ? EX_LENGTH + line_end(bytes) : 0;
}

/* Where the body at the front ends: before the first line end that /EX follows. */
static bool body_end(struct part bytes, size_t *body, size_t *after)
{
    struct part at = bytes;

    for (; at.n; skip(&at, 1)) {
        struct part next = at;
        skip(&next, line_end(at));
        if (line_end(at) && end_mark(next)) {
            *body = (size_t)(at.at - bytes.at);
            *after = *body + line_end(at) + end_mark(next);
            return true;
        }
    }
    return false;
}

/* ---- header lines */

struct header {
    struct part from, to, title, id, bid, type, jnos_type, form, level, name, size, length, cc, forwarded_to;
    bool held;
};

/* Where the value of a keyword goes; NULL for one that we don't know. */
static struct part *place_of(struct header *header, struct part keyword)
{
    const struct {
        const char *keyword;
        struct part *place;
    } places[] = {
        { "From", &header->from }, { "To", &header->to }, { "Subject", &header->title }, { "Message-ID", &header->id },
        { "X-BID", &header->bid }, { "X-msgtype", &header->type }, { "X-BBS-Msg-Type", &header->jnos_type }, { "X-Form", &header->form },
        { "X-Level", &header->level },
        { "X-File-Name", &header->name }, { "X-Size", &header->size }, { "X-Length", &header->length }, { "cc", &header->cc },
        { "X-Forwarded-To", &header->forwarded_to }
    };
    size_t i;

    for (i = 0; i < sizeof places / sizeof places[0]; i++) {
        if (part_names(keyword, places[i].keyword))
            return places[i].place;
    }
    return NULL;
}

/* A title or name may begin and end with spaces: only the one after the colon isn't part of it. */
static void take_value(struct header *header, struct part *place, struct part value)
{
    if (place != &header->title && place != &header->name)
        value = part_trimmed(value);
    else if (value.n && value.at[0] == ' ')
        skip(&value, 1);
    *place = value;
}

static const char *read_header(struct part *file, struct header *header)
{
    bool known = true;

    memset(header, 0, sizeof *header);
    while (file->n) {
        struct part line = take_line(file), keyword, *place;
        if (!line.n)
            return NULL;
        if (line.at[0] == ' ' || line.at[0] == '\t') {
            if (known)
                return "a header line begins with a space";
            continue; /* more of a header that we don't know */
        }
        if (!memchr(line.at, ':', line.n))
            return "a header line has no colon";
        keyword = part_until(&line, ':');
        place = place_of(header, keyword);
        header->held = header->held || part_names(keyword, "X-BBS-Hold");
        known = place != NULL;
        if (place)
            take_value(header, place, line);
    }
    return "no empty line after the header";
}

bool letter_address(struct part text, struct part *call, struct part *mailbox)
{
    *call = part_trimmed(part_until(&text, '@'));
    *mailbox = part_trimmed(text);
    return call->n && mailbox->n;
}

static bool find_form(struct part name, uint8_t *form)
{
    for (*form = PLAIN_TEXT; *form <= PACKED_FILE; ++*form) {
        if (part_names(name, form_names[*form]))
            return true;
    }
    *form = PLAIN_TEXT;
    return name.n == 0;
}

static const char *judge_level(struct part text, uint8_t level, struct message *message)
{
    long number = level;

    if (text.n && (!part_number(text, &number) || number > LEVEL_LAST))
        return "X-Level is not 0 or 1";
    message->level = message->form == PLAIN_TEXT ? 0 : (uint8_t)number;
    return NULL;
}

static const char *judge_header(const struct header *header, struct letter *letter)
{
    struct message *message = &letter->message;
    struct part type = header->type.n ? header->type : header->jnos_type, from = header->from;

    memset(letter, 0, sizeof *letter);
    letter->cc = header->cc;
    letter->forwarded_to = header->forwarded_to;
    message->state = header->held ? HELD : WAITING;
    message->from = part_trimmed(part_until(&from, '@'));
    message->bid = header->bid.n ? header->bid : header->id;
    message->title = header->title;
    message->name = header->name;
    message->type = type.n ? type.at[0] & 0xDF : 'P'; /* a capital */
    if (type.n > 1)
        return "X-msgtype is not one letter";
    if (!find_form(header->form, &message->form))
        return "X-Form is not plain, message or file";
    return letter_address(header->to, &message->to, &message->at) ? NULL : "To is not CALL@MAILBOX";
}

/* ---- line ends */

static bool has_byte(struct part bytes, uint8_t byte)
{
    return bytes.n && memchr(bytes.at, byte, bytes.n);
}

bool letter_has_lf_ends(struct part body)
{
    return has_byte(body, '\n') && !has_byte(body, '\r');
}

void letter_to_air(struct bytes *air, struct part body)
{
    size_t i;

    for (i = 0; i < body.n; i++) {
        if (body.at[i] != '\n')
            bytes_add(air, body.at + i, 1);
        else if (!i || body.at[i - 1] != '\r')
            bytes_add(air, "\r", 1);
    }
}

/* ---- reading */

/* Where a body of this length ends, and the end mark after it. */
static const char *counted_end(struct part rest, struct part length, size_t *body, size_t *after)
{
    long n;
    size_t line;

    if (!part_number(length, &n))
        return "X-Length is no number";
    *body = (size_t)n;
    if (*body > rest.n)
        return "the body is shorter than X-Length says";
    skip(&rest, *body);
    line = line_end(rest);
    skip(&rest, line);
    if (!line || !end_mark(rest))
        return "no /EX where X-Length says that the body ends";
    *after = *body + line + end_mark(rest);
    return NULL;
}

static const char *read_body(struct part *file, struct part length, struct message *message)
{
    size_t body = 0, after = end_mark(*file); /* a body that isn't there at all is empty */
    const char *wrong = NULL;

    if (length.n)
        wrong = counted_end(*file, length, &body, &after);
    else if (!after && !body_end(*file, &body, &after))
        wrong = "no line /EX after the body";
    if (wrong)
        return wrong;
    message->body.at = file->at;
    message->body.n = body;
    skip(file, after);
    return NULL;
}

bool letter_follows(struct part *file)
{
    while (line_end(*file))
        skip(file, line_end(*file));
    return file->n > 0;
}

const char *letter_read(struct part *file, uint8_t level, struct letter *letter)
{
    struct header header;
    const char *wrong = read_header(file, &header);
    long size;

    if (!wrong)
        wrong = judge_header(&header, letter);
    if (!wrong)
        wrong = judge_level(header.level, level, &letter->message);
    if (!wrong)
        wrong = read_body(file, header.length, &letter->message);
    if (wrong)
        return wrong;
    size = (long)letter->message.body.n;
    if (header.size.n && !part_number(header.size, &size))
        return "X-Size is no number";
    letter->message.size = (uint32_t)size;
    return NULL;
}

/* ---- writing */

static void put(FILE *to, struct part part)
{
    if (part.n)
        fwrite(part.at, 1, part.n, to);
}

static void put_header(FILE *to, const char *keyword, struct part value)
{
    fprintf(to, "%s: ", keyword);
    put(to, value);
    fputs("\r\n", to);
}

/* Whether the body would be read back as it is, without X-Length. */
static bool reads_back(struct part body)
{
    static const char end[] = "\r\n" EX "\r\n";
    struct bytes trial = { NULL, 0, 0 };
    size_t n = 0, after;
    bool right;

    bytes_add(&trial, body.at, body.n);
    bytes_add(&trial, end, sizeof end - 1);
    right = !end_mark(part_all(&trial)) && body_end(part_all(&trial), &n, &after) && n == body.n;
    bytes_free(&trial);
    return right;
}

static void put_address(FILE *to, const struct message *message)
{
    fputs("To: ", to);
    put(to, message->to);
    fputc('@', to);
    put(to, message->at);
    fputs("\r\n", to);
}

bool letter_write(FILE *to, const struct message *message, struct part forwarded_to)
{
    struct part type = { &message->type, 1 };

    put_header(to, "From", message->from);
    put_address(to, message);
    if (message->title.n)
        put_header(to, "Subject", message->title);
    put_header(to, "Message-ID", message->bid);
    put_header(to, "X-msgtype", type);
    put_header(to, "X-BID", message->bid);
    if (message->state == HELD)
        put_header(to, "X-BBS-Hold", part_of("yes"));
    if (forwarded_to.n)
        put_header(to, "X-Forwarded-To", forwarded_to);
    if (message->form != PLAIN_TEXT && message->form <= PACKED_FILE)
        put_header(to, "X-Form", part_of(form_names[message->form]));
    if (message->form != PLAIN_TEXT && message->level)
        fprintf(to, "X-Level: %u\r\n", message->level);
    if (message->name.n)
        put_header(to, "X-File-Name", message->name);
    if (message->size != message->body.n)
        fprintf(to, "X-Size: %lu\r\n", (unsigned long)message->size);
    if (!reads_back(message->body))
        fprintf(to, "X-Length: %lu\r\n", (unsigned long)message->body.n);
    fputs("\r\n", to);
    put(to, message->body);
    fputs("\r\n" EX "\r\n", to);
    return !ferror(to);
}
