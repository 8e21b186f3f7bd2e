/* The login of a mailbox's telnet port: wait for its questions, answer them. After that all bytes are the protocol's. */
#ifndef LOGIN_H
#define LOGIN_H

#include "link.h"

#define CALLSIGN_QUESTION "Callsign : "
#define PASSWORD_QUESTION "Password : "

bool login(struct link *link, const struct options *options);

#endif
