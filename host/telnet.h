/* The telnet layer of a mailbox's TCP port: a byte FF is sent twice, an FF with another byte after it begins a command. */
#ifndef TELNET_H
#define TELNET_H

#include "bytes.h"

struct telnet {
    enum { DATA, COMMAND, OPTION, SUBOPTION, SUBOPTION_FF } at;
};

/* Adds the bytes with each FF doubled. */
void telnet_double(struct bytes *to, struct part bytes);
/* Takes commands and second FFs out, where the bytes lie; gives how many are left. */
size_t telnet_undouble(struct telnet *telnet, uint8_t *bytes, size_t n);

#endif
