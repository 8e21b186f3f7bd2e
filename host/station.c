#include "station.h"

#include <stdio.h>
#include <string.h>

#define NAME_MOST 6
#define MAX_SSID 15
#define SSID_DIGITS 2

static bool add_name(struct part name, struct station *station)
{
    size_t i;

    if (name.n == 0 || name.n > NAME_MOST)
        return false;
    for (i = 0; i < name.n; i++) {
        uint8_t byte = name.at[i];
        bool lower = byte >= 'a' && byte <= 'z', upper = byte >= 'A' && byte <= 'Z', digit = byte >= '0' && byte <= '9';
        if (!lower && !upper && !digit)
            return false;
        station->text[i] = (char)(lower ? byte - 'a' + 'A' : byte);
    }
    return true;
}

bool station_read(struct part text, struct station *station)
{
    bool dashed = text.n && memchr(text.at, '-', text.n) != NULL;
    struct part name = part_until(&text, '-');
    size_t at = name.n;
    long ssid = 0;

    memset(station, 0, sizeof *station);
    if (!add_name(name, station) || (dashed && (text.n > SSID_DIGITS || !part_number(text, &ssid) || ssid > MAX_SSID))) {
        memset(station, 0, sizeof *station);
        return false;
    }
    if (ssid)
        snprintf(station->text + at, sizeof station->text - at, "-%d", (int)ssid);
    return true;
}

bool station_is(const struct station *a, const struct station *b)
{
    return !strcmp(a->text, b->text);
}
