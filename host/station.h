/* Stations of AX.25: 1 to 6 letters and digits, and an SSID. */
#ifndef STATION_H
#define STATION_H

#include "bytes.h"

#define STATION_ROOM 10 /* six, a dash, two digits, and the zero byte that ends it */

struct station {
    char text[STATION_ROOM]; /* capitals, without an SSID of 0; empty: none */
};

/* NAME or NAME-SSID. False, and none, if it is no station. Unlike a callsign (call.h) it may be an alias without a digit. */
bool station_read(struct part text, struct station *station);
bool station_is(const struct station *a, const struct station *b);

#endif
