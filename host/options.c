#include "options.h"
#include "bytes.h"
#include "login.h"
#include "fringemole.h"
#include "say.h"

#include <stddef.h>
#include <stdio.h>
#include <string.h>

#define VERSION "1.0"
#define TRANSCRIPT "--transcript="
/* What a limit is where nobody says another; times in seconds. */
#define TIMEOUT 600
#define SID_LIMIT 120
#define PROGRESS_LIMIT 600
#define SESSION_LIMIT 86400
#define LEAST_RATE 10 /* bytes a second */
#define LOGIN_LIMIT 4096 /* bytes */
#define LINGER 30
#define DELAY 3
#define CALLERS 32
#define ROOM ((long)FRINGEMOLE_MAX_MESSAGES * FRINGEMOLE_MAX_BODY) /* each message that a session can keep, at its longest */

/* in parts, since a string of C99 has 4,095 bytes at most */
static const char commands_help[] =
    "Usage: fringemole BASE COMMAND [OPTION]..\n"
    "One end of FBB mail forwarding. BASE is a SQLite file with the messages.\n"
    "\n"
    "  init                 make a new, empty base\n"
    "  import FILE..        put the messages of files into the outbox (-: standard input)\n"
    "  export FOLDER        write each message of the inbox to a file of its own\n"
    "  list                 show both boxes\n"
    "  trace BID|FILE..     show a message's way by its routing headers, copies side by side\n"
    "  replay FILE          show what our node would have made of a capture; needs no base\n"
    "  whitepages FILE|BID..\n"
    "                       keep and show the home mailboxes that a mail of white pages names\n"
    "  home CALL            where CALL's mail goes, by the newest white page\n"
    "  sessions             show what each session did, the newest first\n"
    "  release BID..        let held messages go\n"
    "  admit CALL [FILE]    CALL is a partner and may call; its password is FILE's first line\n"
    "                       (-: standard input)\n"
    "  dismiss CALL         CALL is none any more\n"
    "  partners             show them: who may call, was there when, what waits for whom\n"
    "  routes               show which private mail is for whom\n"
    "  route AT [CALL]      private mail at AT (as FRA.EU, or *) goes to CALL; or no more\n"
    "  forward BID..        let waiting messages go to others (--for)\n"
    "  call [HOST:]PORT     call a partner over TCP\n"
    "  listen [HOST:]PORT   wait for partners to call over TCP, one at a time\n"
    "  stdio                a session on standard input and output\n"
    "  serial DEVICE BITS   a session on a serial device, at 300 to 230400 bit/s\n"
    "  agw [HOST:]PORT MYCALL CALL [via CALL..]\n"
    "                       call a partner by radio, by a TNC's AGW port (or --listen)\n"
    "HOST is 127.0.0.1 if it is left out. PORT 0 listens where there is room.\n";

static const char options_help_text[] =
    "\n"
    "Options of a session\n"
    "  --caller, --called   our role (caller: call, agw; called: the others, agw --listen)\n"
    "  --login TEXT         answer the partner's login question with this line first\n"
    "  --question TEXT      the question (\"Callsign : \")\n"
    "  --password FILE      and \"Password : \" with FILE's first line\n"
    "  --telnet             FF bytes are doubled on the wire\n"
    "  --blank-offset       take blanks for zeros in a framed header's offset, as LinFBB sends it\n"
    "  --header MAILBOX     put our routing header in front of plain messages, with this mailbox\n"
    "  --transcript[=FILE]  show both directions as they look on the air (FILE is added to)\n"
    "  --log FILE           add what is said to FILE instead of standard error\n"
    "  --progress           progress lines also where standard error is no terminal\n"
    "  --panel              the front panel, too: what waits, what became of what was proposed\n"
    "  --room BYTES         for bodies that come in, in one session (4194240)\n"
    "  --once               listen: end after one session, with its exit code\n"
    "  --drop-after BYTES   drop the link after so many bytes, to see what happens\n"
    "  --rtscts             serial: hardware flow control\n"
    "  --partner CALL       who the partner is, where nobody says it and there are several\n"
    "  --from CALL          stdio: who calls, as ax25d knows it; served if it is a partner\n"
    "  --listen             agw: wait for partners to call by radio, one at a time\n"
    "  --radio NUMBER       agw: which radio of the TNC, from 0 (0)\n"
    "  --anyone             serve callers from outside without asking who they are\n"
    "Limits; 0: none\n"
    "  --timeout SECONDS    of silence, from the last byte that came or left (" TEXT_OF(TIMEOUT) ")\n"
    "  --sid-limit SECONDS  until the partner's SID has come, login included (" TEXT_OF(SID_LIMIT) ")\n"
    "  --progress-limit SECONDS\n"
    "                       without progress in the protocol (" TEXT_OF(PROGRESS_LIMIT) ")\n"
    "  --least-rate BYTES   a second, in transfers, that count as progress (" TEXT_OF(LEAST_RATE) ")\n"
    "  --session-limit SECONDS\n"
    "                       of the whole session (" TEXT_OF(SESSION_LIMIT) ")\n"
    "  --login-limit BYTES  before a login is over (" TEXT_OF(LOGIN_LIMIT) ")\n"
    "  --linger SECONDS     after hanging up, for our last bytes (" TEXT_OF(LINGER) ")\n"
    "  --delay SECONDS      until a caller who is no partner is hung up on (" TEXT_OF(DELAY) ")\n"
    "  --callers COUNT      listen: at once, one of them in a session (" TEXT_OF(CALLERS) ")\n"
    "Options of the others\n"
    "  --call CALL          init: our callsign, for BIDs of messages that have none\n"
    "  --partner CALL       init: the first partner's callsign\n"
    "  --for CALL[,CALL]..  import, forward: for these partners, whatever the rule says\n"
    "  --text               import, trace, whitepages: line ends of plain bodies become CR,\n"
    "                       as on the air\n"
    "  --as-is              import, trace, whitepages: plain bodies whose lines end with LF\n"
    "                       stay as they are\n"
    "  --level NUMBER       import: of packed texts that don't say theirs, 0 or 1 (0)\n"
    "  --outbox             export: the outbox instead\n"
    "  --older              home: the older white pages, too\n"
    "  --date YYMMDD        whitepages: only show this date of the old white pages in seconds\n"
    "  --seconds NUMBER     whitepages: only show these seconds as such a date\n";

static const char ends_help[] =
    "\n"
    "--help, --version and replay need no base (one that is named replay: ./replay).\n"
    "\n"
    "Exit codes\n"
    "  0  done; a session ended by FQ\n"
    "  1  failed: no memory, output or transcript that can't be written\n"
    "  2  bad usage\n"
    "  3  bad base: not there, not a base, in use, a message that breaks the rules\n"
    "  4  bad port\n"
    "  5  link dropped, or the partner silent too long\n"
    "  6  refusal, of a session or of a date; its number is said\n"
    "  7  bad message file; files that another message's BID or text kept from their place;\n"
    "     a mail of white pages that can't be read\n"
    "  8  the caller is no partner\n"
    "SIGINT and SIGTERM end it by themselves (a shell shows 130 and 143).\n"
    "\n"
    "A session takes 64 messages that wait for its partner, the oldest first, knows 1,024 BIDs\n"
    "and keeps up to 64 messages. What is left waits for the next session.\n";

void options_help(void)
{
    fputs(commands_help, stdout);
    fputs(options_help_text, stdout);
    fputs(ends_help, stdout);
}

void options_version(void)
{
    puts("fringemole " VERSION);
}

struct option {
    const char *name;
    enum { FLAG, TEXT, NUMBER } kind; /* set, or takes the word or the number that follows */
    size_t place;                     /* of its field */
};

#define OPTION(name, kind, field) { name, kind, offsetof(struct options, field) }

static const struct option table[] = {
    OPTION("--call", TEXT, call),
    OPTION("--partner", TEXT, partner),
    OPTION("--for", TEXT, for_whom),
    OPTION("--text", FLAG, text),
    OPTION("--as-is", FLAG, as_is),
    OPTION("--level", NUMBER, level),
    OPTION("--outbox", FLAG, outbox),
    OPTION("--older", FLAG, older),
    OPTION("--date", TEXT, date),
    OPTION("--seconds", TEXT, seconds),
    OPTION("--caller", FLAG, caller),
    OPTION("--called", FLAG, called),
    OPTION("--telnet", FLAG, telnet),
    OPTION("--blank-offset", FLAG, blank_offset),
    OPTION("--once", FLAG, once),
    OPTION("--progress", FLAG, progress),
    OPTION("--panel", FLAG, panel),
    OPTION("--login", TEXT, login),
    OPTION("--question", TEXT, question),
    OPTION("--timeout", NUMBER, timeout),
    OPTION("--sid-limit", NUMBER, sid_limit),
    OPTION("--progress-limit", NUMBER, progress_limit),
    OPTION("--session-limit", NUMBER, session_limit),
    OPTION("--least-rate", NUMBER, least_rate),
    OPTION("--login-limit", NUMBER, login_limit),
    OPTION("--linger", NUMBER, linger),
    OPTION("--rtscts", FLAG, flow),
    OPTION("--log", TEXT, log),
    OPTION("--from", TEXT, from),
    OPTION("--header", TEXT, header),
    OPTION("--password", TEXT, password),
    OPTION("--anyone", FLAG, anyone),
    OPTION("--listen", FLAG, listen),
    OPTION("--radio", NUMBER, radio),
    OPTION("--callers", NUMBER, callers),
    OPTION("--delay", NUMBER, delay),
    OPTION("--room", NUMBER, room),
    OPTION("--drop-after", NUMBER, drop_after)
};

static const struct option *find(const char *name, size_t n)
{
    size_t i;

    for (i = 0; i < sizeof table / sizeof table[0]; i++) {
        if (strlen(table[i].name) == n && !memcmp(table[i].name, name, n))
            return &table[i];
    }
    return NULL;
}

static bool take_value(struct options *options, const struct option *option, const char *value)
{
    char *field = (char *)options + option->place;

    if (option->kind == TEXT) {
        *(const char **)(void *)field = value;
        return true;
    }
    if (part_number(part_of(value), (long *)(void *)field))
        return true;
    say("%s: not a number: %s", option->name, value);
    return false;
}

/* Takes the option at words[*at] and its value, and leaves *at at the last word it took. */
static bool take_option(struct options *options, char **words, int count, int *at)
{
    const char *word = words[*at], *equals = strchr(word, '=');
    const struct option *option = find(word, equals ? (size_t)(equals - word) : strlen(word));

    if (option && option->kind == FLAG && !equals) {
        *(bool *)(void *)((char *)options + option->place) = true;
        return true;
    }
    if (option && option->kind != FLAG && equals)
        return take_value(options, option, equals + 1);
    if (option && option->kind != FLAG && *at + 1 < count)
        return take_value(options, option, words[++*at]);
    say(option ? "%s: wrong use; see --help" : "%s: no such option; see --help", word);
    return false;
}

static void defaults(struct options *options)
{
    memset(options, 0, sizeof *options);
    options->call = options->partner = options->for_whom = "";
    options->question = CALLSIGN_QUESTION;
    options->timeout = TIMEOUT;
    options->sid_limit = SID_LIMIT;
    options->progress_limit = PROGRESS_LIMIT;
    options->session_limit = SESSION_LIMIT;
    options->least_rate = LEAST_RATE;
    options->login_limit = LOGIN_LIMIT;
    options->linger = LINGER;
    options->delay = DELAY;
    options->callers = CALLERS;
    options->room = ROOM;
    options->drop_after = -1;
}

/* Base and command come first among the words that are no options; the others are moved together at the front of `words`. A capture is
 * replayed without a base. */
static void take_word(struct options *options, char **words, char *word)
{
    if (!options->base && !options->command && !strcmp(word, "replay"))
        options->command = word;
    else if (!options->base && !options->command)
        options->base = word;
    else if (!options->command)
        options->command = word;
    else
        words[options->count++] = word;
}

bool options_read(struct options *options, int count, char **words)
{
    int at;

    defaults(options);
    options->arguments = words;
    for (at = 0; at < count; at++) {
        if (!strcmp(words[at], "--help") || !strcmp(words[at], "--version")) {
            options->command = words[at];
            return true;
        }
        if (!strcmp(words[at], "--transcript"))
            options->transcript = "-";
        else if (!strncmp(words[at], TRANSCRIPT, sizeof TRANSCRIPT - 1))
            options->transcript = words[at] + sizeof TRANSCRIPT - 1;
        else if (words[at][0] != '-' || !words[at][1])
            take_word(options, words, words[at]);
        else if (!take_option(options, words, count, &at))
            return false;
    }
    return true;
}
