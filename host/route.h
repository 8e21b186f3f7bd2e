/* Routing headers (003), the R: lines at the top of a plain body: read and written by the proved archive (fringemole_route.h) alone. */
#ifndef ROUTE_H
#define ROUTE_H

#include "fringemole_route.h"
#include "message.h"

/* Whether our header can name this mailbox. */
bool route_can_name(struct part mailbox);

/* Puts our header in front of a message's plain body: when it came to the base, its number there, our mailbox. The whole then lies in a
 * store, which must be empty, and is announced with as many bytes more. Gives NULL, or why the message stays as it is. */
const char *route_add(struct message *message, struct part mailbox, struct bytes *store);

#endif
