/* Whether the library takes a message into its table, and if not, because of what. */
#ifndef FAULT_H
#define FAULT_H

#include "message.h"

/* NULL, or the rule of document 01 that the message breaks. */
const char *message_fault(const struct message *message);
bool bid_is_right(struct part bid);

#endif
