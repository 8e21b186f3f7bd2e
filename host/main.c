/* Fringemole's reference host: a port and a message base, and between them the library's three calls, which decide everything. */
#include "agw.h"
#include "base.h"
#include "boxes.h"
#include "call.h"
#include "level.h"
#include "options.h"
#include "partners.h"
#include "radio.h"
#include "replay.h"
#include "route.h"
#include "serve.h"
#include "stop.h"

#include <errno.h>
#include <signal.h>
#include <stdio.h>
#include <string.h>

/* An option may be left out, but is a callsign if it is there. */
static bool callsign(const char *option, const char *text, struct call *call)
{
    bool right = call_read(part_of(text), call) || !*text;

    if (!right)
        say("%s: %s is no callsign (3 to 6 letters and digits, at least one of each)", option, text);
    return right;
}

static enum exit_code initialize(const struct options *options)
{
    struct call call, partner;

    if (!callsign("--call", options->call, &call) || !callsign("--partner", options->partner, &partner))
        return BAD_USAGE;
    return base_make(options->base, call.text, partner.text) ? DONE : BAD_BASE;
}

/* ---- commands */

#define MANY 9999 /* words */

struct command {
    const char *name;
    int least, most; /* words after it */
    enum exit_code (*run)(const struct options *options);
};

static const struct command commands[] = {
    { "init", 0, 0, initialize },
    { "import", 1, MANY, boxes_import },
    { "export", 1, 1, boxes_export },
    { "list", 0, 0, boxes_list },
    { "trace", 1, MANY, boxes_trace },
    { "replay", 1, 1, replay_run },
    { "whitepages", 0, MANY, boxes_whitepages },
    { "home", 1, 1, boxes_home },
    { "sessions", 0, 0, boxes_sessions },
    { "release", 1, MANY, boxes_release },
    { "partners", 0, 0, partners_list },
    { "admit", 1, 2, partners_admit },
    { "dismiss", 1, 1, partners_dismiss },
    { "routes", 0, 0, partners_routes },
    { "route", 1, 2, partners_route },
    { "forward", 1, MANY, partners_forward },
    { "call", 1, 1, serve_call },
    { "listen", 1, 1, serve_listen },
    { "stdio", 0, 0, serve_stdio },
    { "serial", 2, 2, serve_serial },
    { "agw", RADIO_WORDS, RADIO_WORDS + RADIO_CALL_WORDS + AGW_MAX_DIGIPEATERS, radio_serve }
};

static enum exit_code run(const struct options *options)
{
    size_t i;

    for (i = 0; i < sizeof commands / sizeof commands[0]; i++) {
        const struct command *command = &commands[i];
        if (strcmp(command->name, options->command))
            continue;
        if (options->count >= command->least && options->count <= command->most)
            return command->run(options);
        if (options->count > command->most && options->transcript && !strcmp(options->transcript, "-"))
            say("%s: too many arguments; a transcript's file stands after =, as in --transcript=FILE", command->name);
        else
            say("%s: wrong number of arguments; see --help", command->name);
        return BAD_USAGE;
    }
    say("%s: no such command; see --help", options->command);
    return BAD_USAGE;
}

/* Whether all that was printed got out. */
static enum exit_code printed(enum exit_code code)
{
    if (fflush(stdout) == 0 && !ferror(stdout))
        return code;
    if (!stop_asked())
        say("standard output: %s", strerror(errno));
    return code == DONE ? FAILED : code;
}

/* Says which isn't. */
static bool are_right(const struct options *options)
{
    struct call partner;

    if (!options->command || (options->caller && options->called)) {
        say("give a base, a command and at most one role; see --help");
        return false;
    }
    if (*options->partner && !call_read(part_of(options->partner), &partner)) {
        say("--partner: %s is no callsign (3 to 6 letters and digits, at least one of each)", options->partner);
        return false;
    }
    if (options->level > LEVEL_LAST) {
        say("--level: a packed text is of level 0 or 1");
        return false;
    }
    if (options->header && !route_can_name(part_of(options->header))) {
        say("--header: %s is no mailbox (parts of 1 to 6 bytes 0x21-0x7E without @, joined by dots, 38 bytes in all)", options->header);
        return false;
    }
    return true;
}

int main(int count, char **words)
{
    struct options options;
    enum exit_code code;

    say_start();
    signal(SIGPIPE, SIG_IGN);
    stop_watch();
    if (!options_read(&options, count - 1, words + 1))
        return BAD_USAGE;
    if (options.command && !strcmp(options.command, "--help")) {
        options_help();
        return printed(DONE);
    }
    if (options.command && !strcmp(options.command, "--version")) {
        options_version();
        return printed(DONE);
    }
    if (!are_right(&options))
        return BAD_USAGE;
    if (options.log && !say_to(options.log))
        return FAILED;
    code = printed(run(&options));
    stop_finish();
    return code;
}
