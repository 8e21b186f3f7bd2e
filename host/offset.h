/* The offset of a framed header. LinFBB pads it with blanks, and document 01 refuses them (8). Where the operator asks for it, the host hands
 * the library a zero for such a blank; the library judges that zero like any byte. */
#ifndef OFFSET_H
#define OFFSET_H

#include <stdbool.h>
#include <stdint.h>

/* Whether an offset may begin within the next bytes: then they must be received one by one, because only the byte before says what a byte is. */
bool offset_may_begin(const uint8_t *session);
/* The next byte as the library gets it: a zero for a blank where session memory says that a digit of an offset is due, else the byte itself. */
uint8_t offset_digit(const uint8_t *session, uint8_t byte);

#endif
