/* whitepages: the home mailboxes that mails of white pages name are kept in the base and shown, and so is what was dropped and why. Or a
 * date of the old white pages is converted. */
#include "boxes.h"
#include "file.h"
#include "letter.h"
#include "pages.h"
#include "show.h"
#include "text.h"

#include <stdio.h>
#include <stdlib.h>
#include <string.h>
#include <unistd.h>

#define SHOWN_OF_A_LINE 72 /* bytes; the rest of a dropped line tells nobody more */

/* A mail to be read. */
struct mail {
    char *title;        /* which it is */
    struct bytes body;
    struct bytes source;
    bool inbox;         /* the source is a BID of the inbox, else a file */
    bool packed;
    const char *no_letter; /* NULL, or why its file is no file of messages: then all of it is the mail */
    long long added;    /* to the base */
};

struct reading {
    const struct options *options;
    const char *file; /* where the next message is from; NULL: the inbox */
    struct bytes mails; /* struct mail each */
};

static size_t count_mails(const struct reading *reading)
{
    return reading->mails.n / sizeof(struct mail);
}

static struct mail *mail_at(const struct reading *reading, size_t place)
{
    return (struct mail *)(void *)reading->mails.at + place;
}

static void forget_mails(struct reading *reading)
{
    size_t i;

    for (i = 0; i < count_mails(reading); i++) {
        free(mail_at(reading, i)->title);
        bytes_free(&mail_at(reading, i)->body);
        bytes_free(&mail_at(reading, i)->source);
    }
    bytes_free(&reading->mails);
}

/* ---- what is named */

/* A message of the inbox or of a file, or (no message) all of a file. */
static void print_title(FILE *to, const struct reading *reading, const struct message *message)
{
    if (!message)
        fprintf(to, "%s", reading->file);
    else if (reading->file)
        fprintf(to, "%s, message %lld", reading->file, message->number);
    else
        fprintf(to, "inbox %lld", message->number);
    if (message && message->copy)
        fprintf(to, ", copy %lld", message->copy);
    if (message) {
        fprintf(to, ", BID ");
        text_show(to, message->bid);
        fprintf(to, ", from ");
        text_show(to, message->from);
        fprintf(to, ": ");
        text_show(to, message->form == PACKED_FILE ? message->name : message->title);
    }
}

/* Without a message: of a file. */
static struct mail *add_mail(struct reading *reading, const struct message *message, struct part body)
{
    struct mail mail;
    struct part source = reading->file ? part_of(reading->file) : message->bid;
    size_t n;
    FILE *to;

    memset(&mail, 0, sizeof mail);
    to = open_memstream(&mail.title, &n);
    if (to)
        print_title(to, reading, message);
    if (!to || fclose(to))
        give_up("no memory");
    bytes_add(&mail.body, body.at, body.n);
    bytes_add(&mail.source, source.at, source.n);
    mail.inbox = !reading->file;
    mail.packed = message && message->form != PLAIN_TEXT;
    bytes_add(&reading->mails, &mail, sizeof mail);
    return mail_at(reading, count_mails(reading) - 1);
}

static bool take_message(void *context, const struct message *message)
{
    add_mail(context, message, message->body);
    return true;
}

static enum exit_code bad(const struct reading *reading, const char *what)
{
    say("%s: %s", reading->file, what);
    return BAD_FILE;
}

/* Line ends as import takes them. No letter: why the file is none of messages, where all of it is the mail. */
static enum exit_code take_text(struct reading *reading, const struct message *message, struct part body, const char *no_letter)
{
    struct bytes air = { NULL, 0, 0 };
    const struct options *options = reading->options;
    bool plain = !message || message->form == PLAIN_TEXT;

    if (plain && !options->text && !options->as_is && letter_has_lf_ends(body))
        return bad(reading, "its lines end with LF, and on the air with CR: read it with --text (or --as-is)");
    if (plain && options->text) {
        letter_to_air(&air, body);
        body = part_all(&air);
    }
    add_mail(reading, message, body)->no_letter = no_letter;
    bytes_free(&air);
    return DONE;
}

/* A file of messages as import knows it, each of them a mail; or the text of a mail itself. */
static enum exit_code take_letters(struct reading *reading, struct part file)
{
    enum exit_code code = DONE;
    struct part rest = file;
    struct letter letter;
    long long place;

    if (file_fault(file))
        return bad(reading, file_fault(file));
    for (place = 1; code == DONE && letter_follows(&rest); place++) {
        const char *wrong = letter_read(&rest, 0, &letter);
        letter.message.number = place;
        if (wrong)
            return place == 1 ? take_text(reading, NULL, file, wrong) : bad(reading, wrong);
        code = take_text(reading, &letter.message, letter.message.body, NULL);
    }
    return code;
}

static enum exit_code take_file(struct reading *reading, const char *name)
{
    struct bytes file = { NULL, 0, 0 };
    enum exit_code code = BAD_FILE;

    reading->file = name;
    if (strcmp(name, "-") && access(name, F_OK)) {
        say("%s: no message of the inbox has this BID, and no file this name", name);
        return BAD_USAGE;
    }
    if (file_read(name, &file))
        code = take_letters(reading, part_all(&file));
    bytes_free(&file);
    return code;
}

/* What the inbox has of a BID comes before a file of that name. */
static enum exit_code take_word(struct reading *reading, struct base *base, const char *word)
{
    size_t before = count_mails(reading);

    reading->file = NULL;
    if (!base_each_of(base, INBOX, part_of(word), take_message, reading))
        return BAD_BASE;
    return count_mails(reading) > before ? DONE : take_file(reading, word);
}

/* ---- keeping */

struct keeping {
    struct base *base;
    struct mail *mail;
};

static bool keep_page(void *context, const struct page *page)
{
    struct keeping *keeping = context;
    struct home home = page->home;
    bool added = false, right;

    if (page->kind != PAGE_HOME)
        return true;
    home.source = part_all(&keeping->mail->source);
    home.inbox = keeping->mail->inbox;
    right = home_add(keeping->base, &home, &added);
    keeping->mail->added += added;
    return right;
}

/* All of them or none. */
static bool keep_mails(struct reading *reading, struct base *base)
{
    bool right = base_begin(base);
    size_t i;

    for (i = 0; right && i < count_mails(reading); i++) {
        struct keeping keeping = { base, mail_at(reading, i) };
        right = keeping.mail->packed || pages_each(part_all(&keeping.mail->body), keep_page, &keeping);
    }
    return right && base_commit(base);
}

/* ---- showing */

struct tally {
    long long lines[PAGE_DROPPED + 1]; /* by kind */
    long long old;
};

static void show_dropped(const struct page *page)
{
    struct part text = page->text;
    bool cut = text.n > SHOWN_OF_A_LINE;

    text.n = cut ? SHOWN_OF_A_LINE : text.n;
    printf("dropped  ");
    text_show(stdout, text);
    printf("%s\n                %s\n", cut ? " .." : "", page->why);
}

static bool show_page(void *context, const struct page *page)
{
    struct tally *tally = context;

    tally->lines[page->kind]++;
    tally->old += page->kind == PAGE_HOME && page->home.old;
    if (page->kind == PAGE_SKIPPED)
        return show_goes_on();
    printf("%7lld  ", page->number);
    if (page->kind == PAGE_DROPPED) {
        show_dropped(page);
    } else if (page->kind == PAGE_VERSION) {
        printf("%.2s   version %u.%u\n", (const char *)page->text.at, page->version / 10, page->version % 10);
    } else {
        printf("%-5.*s", page->home.old ? 3 : 2, page->home.old ? "old" : (const char *)page->text.at);
        show_home(&page->home);
        putchar('\n');
    }
    return show_goes_on();
}

static bool show_pages(const struct mail *mail)
{
    struct tally tally = { { 0 }, 0 };

    printf("   line  sum  ");
    show_home_head();
    putchar('\n');
    pages_each(part_all(&mail->body), show_page, &tally);
    printf("   home mailboxes %lld (new %lld, of the old form %lld), versions %lld; lines skipped %lld, dropped %lld\n", tally.lines[PAGE_HOME],
        mail->added, tally.old, tally.lines[PAGE_VERSION], tally.lines[PAGE_SKIPPED], tally.lines[PAGE_DROPPED]);
    if (!mail->no_letter || tally.lines[PAGE_HOME] || tally.lines[PAGE_VERSION] || tally.lines[PAGE_SKIPPED])
        return true;
    say("%s: no white page; taken for the text of a mail, since as a file of messages: %s", mail->title, mail->no_letter);
    return false;
}

/* Whether it could be read. */
static bool show_mail(const struct mail *mail)
{
    struct fringemole_pages pages = pages_survey(part_all(&mail->body));

    puts(mail->title);
    if (mail->packed)
        puts("   packed: its white pages lie in what is packed");
    else if (pages.unread)
        printf("   version %lu.%lu: left unread, %d.%d is known here\n", (unsigned long)pages.version / 10, (unsigned long)pages.version % 10,
            FRINGEMOLE_PAGES_VERSION / 10, FRINGEMOLE_PAGES_VERSION % 10);
    else
        return show_pages(mail);
    return false;
}

static enum exit_code show_mails(const struct reading *reading)
{
    bool read = true;
    size_t i;

    for (i = 0; i < count_mails(reading) && show_goes_on(); i++)
        read = show_mail(mail_at(reading, i)) && read;
    if (!count_mails(reading))
        puts("no mail");
    return !show_goes_on() ? FAILED : read ? DONE : BAD_FILE;
}

/* ---- dates */

static enum exit_code convert_date(const char *text)
{
    struct part date = part_of(text);
    struct fringemole_page_seconds seconds = fringemole_pages_seconds(date.at, date.n);

    if (seconds.answer == FRINGEMOLE_PAGES_DONE) {
        printf("%lld\n", (long long)seconds.seconds);
        return DONE;
    }
    say("--date: %s: refusal %u, bad date: six digits YYMMDD, years 70 to 99 and 00 to 69", text, (unsigned)seconds.answer);
    return REFUSED;
}

static enum exit_code convert_seconds(const char *text)
{
    const char *digits = text + (*text == '-');
    struct fringemole_page_date date;

    if (!*digits || strspn(digits, "0123456789") != strlen(digits)) {
        say("--seconds: not a number: %s", text);
        return BAD_USAGE;
    }
    /* What has no place in 64 bits becomes the first or the last that has one: both are out of range. */
    date = fringemole_pages_date(strtoll(text, NULL, 10));
    if (date.answer == FRINGEMOLE_PAGES_DONE) {
        printf("%.6s\n", (const char *)date.text);
        return DONE;
    }
    say("--seconds: %s: refusal %u, out of range: from 0 to the end of the year 2069", text, (unsigned)date.answer);
    return REFUSED;
}

static enum exit_code convert(const struct options *options)
{
    enum exit_code code = DONE;

    if (options->count) {
        say("whitepages: with --date or --seconds nothing is read; see --help");
        return BAD_USAGE;
    }
    if (options->date)
        code = convert_date(options->date);
    if (code == DONE && options->seconds)
        code = convert_seconds(options->seconds);
    return code;
}

enum exit_code boxes_whitepages(const struct options *options)
{
    struct reading reading = { options, NULL, { NULL, 0, 0 } };
    enum exit_code code = DONE;
    struct base *base;
    int i;

    if (options->date || options->seconds)
        return convert(options);
    if (!options->count) {
        say("whitepages: wrong number of arguments; see --help");
        return BAD_USAGE;
    }
    base = base_open(options->base, CHANGING);
    if (!base)
        return BAD_BASE;
    for (i = 0; code == DONE && i < options->count; i++)
        code = take_word(&reading, base, options->arguments[i]);
    if (code == DONE && !keep_mails(&reading, base))
        code = BAD_BASE;
    base_close(base);
    if (code == DONE)
        code = show_mails(&reading);
    forget_mails(&reading);
    return code;
}
