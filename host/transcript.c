#include "transcript.h"
#include "say.h"
#include "text.h"

#include <errno.h>
#include <string.h>

bool transcript_open(struct transcript *transcript, const char *name)
{
    memset(transcript, 0, sizeof *transcript);
    if (!name)
        return true;
    transcript->name = strcmp(name, "-") ? name : "standard error";
    transcript->to = strcmp(name, "-") ? fopen(name, "a") : stderr;
    if (!transcript->to)
        say("%s: %s", name, strerror(errno));
    return transcript->to != NULL;
}

static void fail(struct transcript *transcript)
{
    if (!transcript->failed)
        say("the transcript is not whole: %s: %s", transcript->name, strerror(errno));
    transcript->failed = true;
}

void transcript_end_line(struct transcript *transcript)
{
    struct part line = { transcript->line, transcript->n };

    if (transcript->to && transcript->n && !transcript->failed) {
        fputs(transcript->ours ? "us:       " : "partner:  ", transcript->to);
        text_show(transcript->to, line);
        fputc('\n', transcript->to);
        if (fflush(transcript->to) || ferror(transcript->to))
            fail(transcript);
    }
    transcript->n = 0;
}

/* After the byte at the front of `bytes`: a line ends with CR, or CR LF where both came together. */
static bool line_is_over(const struct transcript *transcript, struct part bytes)
{
    if (transcript->n == sizeof transcript->line)
        return true;
    if (bytes.at[0] == '\r')
        return bytes.n == 1 || bytes.at[1] != '\n';
    return bytes.at[0] == '\n' && transcript->n >= 2 && transcript->line[transcript->n - 2] == '\r';
}

void transcript_add(struct transcript *transcript, bool ours, struct part bytes)
{
    if (ours != transcript->ours)
        transcript_end_line(transcript);
    transcript->ours = ours;
    for (; transcript->to && bytes.n; bytes.at++, bytes.n--) {
        transcript->line[transcript->n++] = bytes.at[0];
        if (line_is_over(transcript, bytes))
            transcript_end_line(transcript);
    }
}

bool transcript_close(struct transcript *transcript)
{
    transcript_end_line(transcript);
    if (transcript->to && transcript->to != stderr && fclose(transcript->to))
        fail(transcript);
    return !transcript->failed;
}
