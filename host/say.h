/* What the operator is told, on standard error, and the exit codes. */
#ifndef SAY_H
#define SAY_H

#include <stdbool.h>

enum exit_code {
    DONE = 0,
    FAILED = 1,        /* no memory; output, or a transcript, that can't be written */
    BAD_USAGE = 2,
    BAD_BASE = 3,
    BAD_PORT = 4,
    LINK_DROPPED = 5,
    REFUSED = 6,       /* by the library; the number is said */
    BAD_FILE = 7,      /* a message file */
    NOT_ADMITTED = 8   /* the caller is no partner */
};

#if defined(__GNUC__)
#define LIKE_PRINTF __attribute__((format(printf, 1, 2)))
#define ENDS __attribute__((noreturn))
#else
#define LIKE_PRINTF
#define ENDS
#endif

/* One line: "fringemole: " and the text. */
void say(const char *format, ...) LIKE_PRINTF;
/* Opens what is closed of the three standard descriptors, so that no file or link of ours becomes one of them; nothing is said on a socket
 * that inetd or ax25d has handed over. */
void say_start(void);
/* What is said is added to a file. False after it has said why it can't be. */
bool say_to(const char *file);
/* What is said goes nowhere if standard error is this link. */
void say_not_on(int link);
/* Says it and ends the program. */
void give_up(const char *what) ENDS;

#endif
