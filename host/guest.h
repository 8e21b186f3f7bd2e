/* Who calls: asked as a mailbox's telnet port does, by callsign and password, and looked up among the base's partners. */
#ifndef GUEST_H
#define GUEST_H

#include "call.h"
#include "link.h"

/* Asks, and gives the partner's callsign. False, after a delay, if it is none, or the link is over; nothing more is to be sent then. */
bool guest_asked(struct link *link, const struct options *options, struct call *call);
/* The same of a caller whose callsign somebody else knows (AX.25). */
bool guest_told(const struct options *options, struct call *call);
/* Whether a partner has a password: else nobody could log in. */
bool guest_expected(const struct options *options);

#endif
