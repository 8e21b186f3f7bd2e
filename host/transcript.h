/* A transcript: both directions as they look on the air. A line ends at a CR (and its LF), where the direction turns, or
 * when it is long. */
#ifndef TRANSCRIPT_H
#define TRANSCRIPT_H

#include "bytes.h"

#include <stdio.h>

#define TRANSCRIPT_COLUMNS 80

struct transcript {
    FILE *to; /* NULL: none is kept */
    const char *name;
    bool failed; /* it took a line not; that is said once, and the session goes on */
    bool ours;
    size_t n;
    uint8_t line[TRANSCRIPT_COLUMNS];
};

/* "-": standard error. */
bool transcript_open(struct transcript *transcript, const char *name);
void transcript_add(struct transcript *transcript, bool ours, struct part bytes);
/* Writes the line under way. */
void transcript_end_line(struct transcript *transcript);
/* False if not all of it got to its file. */
bool transcript_close(struct transcript *transcript);

#endif
