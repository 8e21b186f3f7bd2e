/* The door of a listening node: many may stand there, one at a time is let in.
 *
 * Each caller has a process of its own, which asks who it is and hears its SID. Only then it is ready, and the doorkeeper lets one after
 * the other in. When the place is full, whoever has stood there longest without getting ready makes room: so idle callers, slow ones and
 * those who talk without end keep nobody out. */
#ifndef DOOR_H
#define DOOR_H

#include "link.h"
#include "say.h"

/* What a caller's process does: all, from its port to its exit code. `talk` is for door_enter and door_leave. */
typedef enum exit_code door_visit(struct port *port, const struct options *options, int talk);

/* Keeps the door until we are asked to stop or the port fails. */
enum exit_code door_keep(int listener, const struct options *options, door_visit *visit);

/* Greets the caller and hears its SID, on a session of its own with nothing to send and no room, so that the real one can begin with the
 * same bytes (link_rewind). False after it has said why not; `code` is how that ends. */
bool door_hear_sid(struct link *link, const struct options *options, uint8_t role, enum exit_code *code);
/* Waits to be let in; false if the doorkeeper is gone. */
bool door_enter(int talk);
/* The session is over and the next may come, though the link still has to be hung up. */
void door_leave(int talk);

#endif
