/* The two forms of a packed text. What level 0 has is the packed text as it is; at level 1 two check bytes stand in front of the same
 * bytes: their CRC (polynomial 0x1021, from 0), low byte first. To put the check there or to take it off is no packing. */
#ifndef LEVEL_H
#define LEVEL_H

#include "message.h"

#define LEVEL_LAST 1
#define LEVEL_CHECK 2 /* bytes */

/* NULL, or what is wrong with the form of a packed text: a level that there isn't, or a check that isn't that of the bytes behind it. */
const char *level_fault(const struct message *message);
/* The message as a partner at this level takes it; a changed body lies in the store. Its form is right. The announced size goes with the body
 * where it is the body's length; else somebody has set it, and it stays. */
void level_shape(struct message *message, uint8_t level, struct bytes *store);
/* The level in force, as session memory has it once the partner's SID is there. */
uint8_t level_in_force(const uint8_t *session);

#endif
