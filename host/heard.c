#include "heard.h"

#include <string.h>

void heard_add(struct heard *heard, struct part bytes)
{
    for (; bytes.n; bytes.at++, bytes.n--) {
        if (heard->over && bytes.at[0] == '\n' && !heard->lf) {
            heard->lf = true;
            continue;
        }
        if (heard->over)
            heard->n = 0;
        heard->lf = false;
        if (heard->n == sizeof heard->line)
            memmove(heard->line, heard->line + HEARD_MOST, heard->n = HEARD_MOST);
        heard->line[heard->n++] = bytes.at[0];
        heard->over = bytes.at[0] == '\r';
    }
}

struct part heard_line(const struct heard *heard)
{
    size_t past = heard->n > HEARD_MOST ? heard->n - HEARD_MOST : 0;
    struct part line = { heard->line + past, heard->n - past };

    return line;
}
