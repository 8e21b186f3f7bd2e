/* Callsigns, as an operator or a partner writes them. */
#ifndef CALL_H
#define CALL_H

#include "bytes.h"

#define CALL_MAX 6

struct call {
    char text[CALL_MAX + 1]; /* capitals, without SSID */
};

/* CALL or CALL-SSID: 3 to 6 letters and digits, of each at least one, and an SSID from 0 to 15, which is left out. False if it is none. */
bool call_read(struct part text, struct call *call);

#endif
