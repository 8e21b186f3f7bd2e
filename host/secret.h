/* A password: a file's first line, because on the command line everybody on the machine could read it. */
#ifndef SECRET_H
#define SECRET_H

#include "partner.h"

struct secret {
    char text[PARTNER_MAX_PASSWORD + 3]; /* a line end and a zero fit behind it */
};

/* "-" is standard input. False after it has said what is wrong. */
bool secret_read(const char *file, struct secret *secret);

#endif
