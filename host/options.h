/* The command line. */
#ifndef OPTIONS_H
#define OPTIONS_H

#include <stdbool.h>

struct options {
    const char *base, *command;
    char **arguments; /* what follows the command */
    int count;
    /* init */
    const char *call, *partner; /* and of a session, the partner */
    /* import, export */
    bool text, as_is, outbox;
    const char *for_whom; /* import, forward */
    long level; /* of packed texts that don't say theirs */
    /* whitepages, home */
    const char *date, *seconds;
    bool older;
    /* sessions */
    bool caller, called, telnet, blank_offset, once, progress, panel, flow, anyone, listen;
    bool asks;        /* no option: callers from outside must log in */
    const char *with; /* no option: whom a radio link is with; NULL if nobody told */
    const char *login, *question, *password, *transcript, *log, *from, *header;
    long timeout, sid_limit, progress_limit, session_limit, linger, delay; /* seconds; 0: no limit */
    long least_rate, login_limit, callers, radio;                          /* bytes a second, bytes, processes, a number */
    long room, drop_after;
};

/* False after it has said what is wrong. With --help or --version that is the command. */
bool options_read(struct options *options, int count, char **words);
void options_help(void);
void options_version(void);

#endif
