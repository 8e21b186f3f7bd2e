/* A progress line for long transfers: how much went one way since the direction last turned, and how fast. */
#ifndef PROGRESS_H
#define PROGRESS_H

#include <stdbool.h>
#include <stddef.h>
#include <time.h>

struct progress {
    bool on, ours, shown;
    size_t bytes;
    time_t since, last;
};

/* Whether what comes in between is shown: on a terminal that shows nothing else, and elsewhere if it is asked for. */
bool progress_is_watched(bool asked, bool quiet);
/* Where it is shown; off a terminal a line a second. */
void progress_start(struct progress *progress, bool watched);
void progress_add(struct progress *progress, bool ours, size_t n);
/* Leaves the line, so that something else can be said. */
void progress_end(struct progress *progress);

#endif
