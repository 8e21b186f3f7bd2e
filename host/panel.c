#include "panel.h"
#include "bytes.h"
#include "say.h"

#include <string.h>

#define SIZES_BYTES 4

struct panel panel_read(const uint8_t session[FRINGEMOLE_SESSION_SIZE])
{
    struct panel panel;

    panel.waiting = session[FRINGEMOLE_TALLY_WAITING];
    panel.bytes = (unsigned long)bytes_number(session + FRINGEMOLE_TALLY_SIZES, SIZES_BYTES);
    panel.proposed = session[FRINGEMOLE_TALLY_PROPOSED];
    panel.forwarded = session[FRINGEMOLE_TALLY_FORWARDED];
    panel.declined = session[FRINGEMOLE_TALLY_DECLINED];
    panel.deferred = session[FRINGEMOLE_TALLY_DEFERRED];
    panel.unsettled = session[FRINGEMOLE_TALLY_UNSETTLED];
    return panel;
}

bool panel_same(const struct panel *one, const struct panel *other)
{
    return !memcmp(one, other, sizeof *one);
}

void panel_say(const struct panel *panel)
{
    say("panel: %lu waiting, %lu bytes; %lu proposed: %lu forwarded, %lu declined, %lu deferred, %lu not settled", panel->waiting, panel->bytes,
        panel->proposed, panel->forwarded, panel->declined, panel->deferred, panel->unsettled);
}
