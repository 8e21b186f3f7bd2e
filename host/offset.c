#include "offset.h"
#include "fringemole.h"

bool offset_may_begin(const uint8_t *session)
{
    return session[FRINGEMOLE_SESSION_PHASE] == FRINGEMOLE_TRANSFER_PHASE;
}

uint8_t offset_digit(const uint8_t *session, uint8_t byte)
{
    bool due = offset_may_begin(session) && session[FRINGEMOLE_SESSION_PLACE] == FRINGEMOLE_OFFSET_PLACE;

    return due && byte == ' ' ? '0' : byte;
}
