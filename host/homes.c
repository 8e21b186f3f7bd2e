/* home: where a callsign's mail goes, by the newest white page that names it. */
#include "boxes.h"
#include "home.h"
#include "show.h"
#include "statement.h"
#include "text.h"

#include <stdio.h>

struct homes {
    struct part station;
    bool older;            /* the other records are shown, too */
    long long others;
    long long stamp;       /* of the one that answers .. */
    struct bytes mailbox;  /* .. and its mailbox */
    bool answered;
};

static void show_source(const struct home *home)
{
    printf(home->inbox ? "message of the inbox, BID " : "file ");
    text_show(stdout, home->source);
}

static void show_answer(struct homes *homes, const struct home *home)
{
    homes->answered = true;
    homes->stamp = home->stamp;
    bytes_add(&homes->mailbox, home->mailbox.at, home->mailbox.n);
    text_show(stdout, homes->station);
    putchar('@');
    text_show(stdout, home->mailbox);
    printf("\n   white page of ");
    show_time(home->stamp);
    printf(" GMT%s%s: ", home->old ? " (an old one's date, less a day)" : "", home->stamp > base_now() ? " (in the future, by this machine's clock)" : "");
    show_home_person(home);
    printf("\n   from: ");
    show_source(home);
    if (!home->old) {
        printf("; BID ");
        text_show(stdout, home->bid);
        printf(" of ");
        text_show(stdout, home->origin);
        printf(", hops %lld", home->hops);
    }
    putchar('\n');
}

static void show_other(struct homes *homes, const struct home *home)
{
    if (!homes->others && homes->older) {
        printf("   ");
        show_home_head();
        puts("  source");
    }
    homes->others++;
    if (homes->older) {
        printf("   ");
        show_home(home);
        printf("  ");
        show_source(home);
        putchar('\n');
    } else if (home->stamp == homes->stamp && !part_same(home->mailbox, part_all(&homes->mailbox))) {
        printf("   another white page of that time names ");
        text_show(stdout, home->mailbox);
        putchar('\n');
    }
}

static bool take_home(void *context, const struct home *home)
{
    struct homes *homes = context;

    if (homes->answered)
        show_other(homes, home);
    else
        show_answer(homes, home);
    return show_goes_on();
}

enum exit_code boxes_home(const struct options *options)
{
    struct base *base = base_open(options->base, READING);
    struct bytes station = { NULL, 0, 0 };
    struct homes homes = { { NULL, 0 }, options->older, 0, 0, { NULL, 0, 0 }, false };
    bool right;

    home_station(part_of(options->arguments[0]), &station);
    homes.station = part_all(&station);
    right = base && home_each(base, homes.station, take_home, &homes);
    base_close(base);
    if (right && !homes.answered)
        say("%s: no white page of the base names this callsign", options->arguments[0]);
    else if (right && homes.others && !homes.older)
        printf("   white pages beside it: %lld; --older shows them\n", homes.others);
    bytes_free(&station);
    bytes_free(&homes.mailbox);
    return !right ? (show_goes_on() ? BAD_BASE : FAILED) : homes.answered ? DONE : BAD_USAGE;
}
