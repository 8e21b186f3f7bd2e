#include "replay.h"
#include "file.h"
#include "refusal.h"
#include "shelf.h"
#include "show.h"
#include "text.h"
#include "transcript.h"

/* 02, Q-11: the called station, partner 0, "an inbox of 64 places and 32 KiB"; the shelf has the places. */
#define REPLAY_PARTNER 0
#define REPLAY_ROOM 32768
#define REPLAY_BACK 16 /* bytes of a transfer that are shown up to the one that is refused */

struct replay {
    struct shelf shelf;
    struct transcript air;
    struct part capture;
    size_t heard, line; /* bytes of the capture; where the line under way begins */
    bool in_transfer;   /* the last byte is a transfer's */
    bool over;
    uint8_t refusal;
};

static void give_all(struct replay *replay)
{
    uint8_t out[256];
    struct part given = { out, 0 };

    while ((given.n = fringemole_give_in(&replay->shelf.lent, out, sizeof out, 0).count) > 0)
        transcript_add(&replay->air, true, given);
}

/* One byte in, all that waits out, as crates/replay does it. */
static void feed(struct replay *replay)
{
    const struct fringemole_memory *lent = &replay->shelf.lent;
    struct part byte = { replay->capture.at + replay->heard, 1 };

    replay->in_transfer = lent->session[FRINGEMOLE_SESSION_PHASE] == FRINGEMOLE_TRANSFER_PHASE;
    replay->refusal = fringemole_receive_in(lent, byte.at, byte.n).answer;
    replay->heard++;
    transcript_add(&replay->air, false, byte);
    give_all(replay);
    replay->over = fringemole_receive_in(lent, NULL, 0).answer != FRINGEMOLE_OK;
    if (!replay->refusal && (replay->in_transfer || *byte.at == '\r'))
        replay->line = replay->heard;
}

/* What got the refusal: the line so far, without the LF that the CR before it may have had, or the last bytes of a transfer. */
static struct part refused_bytes(const struct replay *replay)
{
    size_t from = replay->line;

    if (replay->in_transfer)
        from = replay->heard > REPLAY_BACK ? replay->heard - REPLAY_BACK : 0;
    else if (from && from + 1 < replay->heard && replay->capture.at[from] == '\n')
        from++;
    return (struct part){ replay->capture.at + from, replay->heard - from };
}

static void show_kept(const struct replay *replay)
{
    size_t place, kept = replay->shelf.session[FRINGEMOLE_SESSION_KEPT];

    for (place = 0; place < kept && show_goes_on(); place++) {
        struct message message = shelf_message(&replay->shelf, place);
        printf("kept:     %c from ", message.type);
        text_show(stdout, message.from);
        printf(" to ");
        text_show(stdout, message.to);
        putchar('@');
        text_show(stdout, message.at);
        printf(", BID ");
        text_show(stdout, message.bid);
        printf(", %s, %lu bytes: ", form_names[message.form], (unsigned long)message.body.n);
        text_show(stdout, message.form == PACKED_FILE ? message.name : message.title);
        putchar('\n');
    }
    if (!kept)
        puts("kept:     nothing");
}

static void show_end(const struct replay *replay)
{
    const char *end = replay->refusal ? "refused at the last of them" : replay->over ? "ended by FQ" : "then the capture ends";

    printf("heard:    %lu of %lu bytes, %s\n", (unsigned long)replay->heard, (unsigned long)replay->capture.n, end);
    if (replay->refusal) {
        printf("refused:  ");
        text_show(stdout, refused_bytes(replay));
        printf("\nbecause:  %s\n", refusal_words(replay->refusal));
    }
    printf("refusal %u\n", (unsigned)replay->refusal);
}

static void play(struct replay *replay)
{
    replay->refusal = shelf_open(&replay->shelf, FRINGEMOLE_CALLED).answer;
    replay->over = replay->refusal != FRINGEMOLE_OK;
    give_all(replay);
    while (!replay->over && replay->heard < replay->capture.n && show_goes_on())
        feed(replay);
    transcript_end_line(&replay->air);
}

enum exit_code replay_run(const struct options *options)
{
    struct replay replay = { .air = { .to = stdout, .name = "standard output" } };
    struct bytes file = { NULL, 0, 0 };
    enum exit_code code = BAD_FILE;

    if (file_read(options->arguments[0], &file)) {
        replay.capture = part_all(&file);
        shelf_start(&replay.shelf, REPLAY_PARTNER, REPLAY_ROOM);
        play(&replay);
        show_kept(&replay);
        show_end(&replay);
        code = !show_goes_on() ? FAILED : replay.refusal ? REFUSED : DONE;
        shelf_clear(&replay.shelf);
    }
    bytes_free(&file);
    return code;
}
