/* The frames of AGW, by which a TNC offers AX.25 to programs over TCP: a header of 36 bytes, and data. */
#ifndef FRAME_H
#define FRAME_H

#include "station.h"

/* Kinds that we send or hear; others are passed over. A TNC answers most with the same kind. */
#define FRAME_RADIOS 'G'      /* which radios there are */
#define FRAME_REGISTER 'X'    /* a callsign is ours */
#define FRAME_CONNECT 'C'     /* call; a link stands */
#define FRAME_CONNECT_VIA 'v' /* call by digipeaters */
#define FRAME_DATA 'D'
#define FRAME_DISCONNECT 'd'
#define FRAME_OUTSTANDING 'Y' /* how many frames the partner hasn't acknowledged */

#define FRAME_MAX_DATA 4096 /* that we take: twice as much as AX.25 can have in one frame */

struct frame {
    uint8_t radio, kind; /* radios are numbered from 0 */
    struct station from, to;
    struct part data;
};

/* Adds it as it goes out. */
void frame_add(struct bytes *out, const struct frame *frame);
/* Looks at the frame that these bytes begin with, and says how many of them it has; 0 if some are still missing. NULL, or what is wrong with
 * it, in words. Its data lie where the bytes do. */
const char *frame_read(struct part bytes, struct frame *frame, size_t *size);
/* A number of four bytes, as AGW has them; false if there are fewer. */
bool frame_number(struct part data, uint32_t *number);
/* A text, with its end cut off at a zero byte. */
struct part frame_text(const struct frame *frame);

#endif
