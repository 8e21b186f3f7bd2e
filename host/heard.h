/* The partner's line under way, as far as it has come: what a refusal was about. */
#ifndef HEARD_H
#define HEARD_H

#include "bytes.h"

#define HEARD_MOST 256 /* a line's limit in document 01 */

struct heard {
    uint8_t line[2 * HEARD_MOST];
    size_t n;
    bool over, lf; /* its CR has come: the next byte begins another, but for one LF, which has come too */
};

/* Bytes that the library consumed. */
void heard_add(struct heard *heard, struct part bytes);
/* Of a longer one, its end. */
struct part heard_line(const struct heard *heard);

#endif
