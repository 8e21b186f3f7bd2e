/* Files of messages, as an operator names them. */
#ifndef FILE_H
#define FILE_H

#include "bytes.h"

/* All of a file, or of standard input (-), added to a store. False after it has said why it can't be read, or when we are asked to stop. */
bool file_read(const char *name, struct bytes *into);
/* NULL, or why no file of messages begins so. */
const char *file_fault(struct part file);

#endif
