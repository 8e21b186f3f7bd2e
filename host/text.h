/* Bytes as a person can read them, and from which they can be told exactly: printable ASCII as it is, a backslash as \\, CR as \r, LF as
 * \n, every other byte as \xNN. Letters beyond ASCII are shown as they are where all of the bytes are text in UTF-8. */
#ifndef TEXT_H
#define TEXT_H

#include "bytes.h"

#include <stdio.h>

/* Gives how many columns it took. */
size_t text_show(FILE *to, struct part bytes);

/* The same as a string, to be freed. */
char *text_copy(struct part bytes);

#endif
