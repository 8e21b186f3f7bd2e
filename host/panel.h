/* The front panel of a session: what waits for its partner, and what became of what was proposed, as session memory has it (02, Q-3). */
#ifndef PANEL_H
#define PANEL_H

#include "fringemole.h"

#include <stdbool.h>

struct panel {
    unsigned long waiting, bytes; /* records that wait, and the sum of their announced sizes */
    unsigned long proposed, forwarded, declined, deferred, unsettled; /* the first is the sum of the other four */
};

struct panel panel_read(const uint8_t session[FRINGEMOLE_SESSION_SIZE]);
bool panel_same(const struct panel *one, const struct panel *other);
/* To the operator, in one line. */
void panel_say(const struct panel *panel);

#endif
