#include "show.h"
#include "stop.h"
#include "text.h"

#include <stdio.h>
#include <time.h>

void show_field(struct part field, size_t width)
{
    size_t columns = text_show(stdout, field);

    printf("%*s", columns < width ? (int)(width - columns) : 1, "");
}

void show_time(long long seconds)
{
    time_t time = (time_t)seconds;
    struct tm parts;
    char text[32] = "?";

    if (gmtime_r(&time, &parts))
        strftime(text, sizeof text, "%Y-%m-%d %H:%M:%S", &parts);
    printf("%s", text);
}

void show_home_head(void)
{
    printf("call    home mailbox                time (GMT)           hops  BID           origin              name, zip, town");
}

static void show_quoted(struct part text)
{
    putchar('"');
    text_show(stdout, text);
    putchar('"');
}

void show_home_person(const struct home *home)
{
    show_quoted(home->name);
    putchar(' ');
    text_show(stdout, home->zip);
    putchar(' ');
    show_quoted(home->town);
}

void show_home(const struct home *home)
{
    show_field(home->call, 8);
    show_field(home->mailbox, 28);
    show_time(home->stamp);
    if (home->hops == HOPS_UNKNOWN)
        printf("  %4s  ", "?");
    else
        printf("  %4lld  ", home->hops);
    show_field(home->bid, 14);
    show_field(home->origin, 20);
    show_home_person(home);
}

bool show_goes_on(void)
{
    return !ferror(stdout) && !stop_asked();
}
