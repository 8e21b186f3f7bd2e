#include "telnet.h"

#define FF 0xFF
#define SUBOPTION_BEGINS 0xFA
#define SUBOPTION_ENDS 0xF0
#define FIRST_WITH_OPTION 0xFB /* WILL, WONT, DO, DONT: one byte follows */

void telnet_double(struct bytes *to, struct part bytes)
{
    static const uint8_t twice[2] = { FF, FF };

    for (; bytes.n; bytes.at++, bytes.n--)
        bytes_add(to, bytes.at[0] == FF ? twice : bytes.at, bytes.at[0] == FF ? 2 : 1);
}

/* Whether the byte is data. */
static bool take(struct telnet *telnet, uint8_t byte)
{
    switch (telnet->at) {
    case DATA:
        telnet->at = byte == FF ? COMMAND : DATA;
        return byte != FF;
    case COMMAND:
        telnet->at = byte == SUBOPTION_BEGINS ? SUBOPTION : byte >= FIRST_WITH_OPTION && byte != FF ? OPTION : DATA;
        return byte == FF;
    case OPTION:
        telnet->at = DATA;
        return false;
    case SUBOPTION:
        telnet->at = byte == FF ? SUBOPTION_FF : SUBOPTION;
        return false;
    default:
        telnet->at = byte == SUBOPTION_ENDS ? DATA : SUBOPTION;
        return false;
    }
}

size_t telnet_undouble(struct telnet *telnet, uint8_t *bytes, size_t n)
{
    size_t i, left = 0;

    for (i = 0; i < n; i++) {
        if (take(telnet, bytes[i]))
            bytes[left++] = bytes[i];
    }
    return left;
}
