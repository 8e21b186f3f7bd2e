#include "rest.h"
#include "fringemole.h"
#include "level.h"

#define FS_SPACE 3 /* bytes before the signs: `FS ` */

static bool listens(const uint8_t *session)
{
    return session[FRINGEMOLE_SESSION_PHASE] == FRINGEMOLE_ANSWER_PHASE && level_in_force(session);
}

void rest_hear(struct rest *rest, const uint8_t *session, struct part bytes)
{
    rest->listens = listens(session);
    if (rest->listens)
        bytes_add(&rest->said, bytes.at, bytes.n);
    else
        rest->said.n = 0;
}

/* The number behind a sign is over 0; its digits are taken off. */
static bool is_over_0(struct part *signs)
{
    bool over = false;

    while (signs->n && signs->at[0] >= '0' && signs->at[0] <= '9') {
        over = over || signs->at[0] != '0';
        signs->at++;
        signs->n--;
    }
    return over;
}

bool rest_stands_before(struct part signs)
{
    bool asked = false;

    while (signs.n) {
        struct part sign = { signs.at++, 1 };
        signs.n--;
        if (is_over_0(&signs))
            asked = true;
        else if (asked && (part_is(sign, "+") || part_is(sign, "!") || part_names(sign, "Y") || part_names(sign, "H") || part_names(sign, "A")))
            return true;
    }
    return false;
}

bool rest_is_asked(struct rest *rest, const uint8_t *session)
{
    struct part said = part_all(&rest->said), line;

    if (!rest->listens || listens(session))
        return false;
    do { /* the FS line is the first that is no ; line; an LF may stand before it */
        line = part_until(&said, '\r');
        if (line.n && line.at[0] == '\n') {
            line.at++;
            line.n--;
        }
    } while (said.n && line.n && line.at[0] == ';');
    if (line.n < FS_SPACE)
        return false;
    line.at += FS_SPACE;
    line.n -= FS_SPACE;
    return rest_stands_before(part_trimmed(line));
}

void rest_free(struct rest *rest)
{
    bytes_free(&rest->said);
}
