#include "progress.h"

#include <stdio.h>
#include <string.h>
#include <unistd.h>

#define LONG_SECONDS 2 /* what is over sooner needs no line */

bool progress_is_watched(bool asked, bool quiet)
{
    return asked || (quiet && isatty(STDERR_FILENO));
}

void progress_start(struct progress *progress, bool watched)
{
    memset(progress, 0, sizeof *progress);
    progress->on = watched;
}

void progress_end(struct progress *progress)
{
    if (progress->shown && isatty(STDERR_FILENO))
        fputc('\n', stderr);
    progress->shown = false;
}

static void show(struct progress *progress, time_t now)
{
    bool terminal = isatty(STDERR_FILENO);
    double rate = (double)progress->bytes / (double)(now - progress->since);

    fprintf(stderr, "%s%s %lu bytes, %.0f bytes/s%s", terminal ? "\r" : "", progress->ours ? "sending:" : "receiving:",
        (unsigned long)progress->bytes, rate, terminal ? "   " : "\n");
    fflush(stderr);
    progress->shown = true;
    progress->last = now;
}

void progress_add(struct progress *progress, bool ours, size_t n)
{
    time_t now = time(NULL);

    if (ours != progress->ours || !progress->since) {
        progress_end(progress);
        progress->bytes = 0;
        progress->since = progress->last = now;
        progress->ours = ours;
    }
    progress->bytes += n;
    if (progress->on && now - progress->since >= LONG_SECONDS && now > progress->last)
        show(progress, now);
}
