#include "frame.h"

#include <string.h>

/* Places in the header; what lies between them is zero. */
enum { AT_RADIO = 0, AT_KIND = 4, AT_PID = 6, AT_FROM = 8, AT_TO = 18, AT_LENGTH = 28, HEADER = 36 };

#define PLAIN_TEXT 0xF0 /* the PID of AX.25 for a link without another protocol on top */
#define NUMBER_BYTES 4

void frame_add(struct bytes *out, const struct frame *frame)
{
    uint8_t *header = bytes_zeros(out, HEADER);
    size_t i;

    header[AT_RADIO] = frame->radio;
    header[AT_KIND] = frame->kind;
    header[AT_PID] = PLAIN_TEXT;
    memcpy(header + AT_FROM, frame->from.text, STATION_ROOM);
    memcpy(header + AT_TO, frame->to.text, STATION_ROOM);
    for (i = 0; i < NUMBER_BYTES; i++)
        header[AT_LENGTH + i] = (uint8_t)(frame->data.n >> 8 * i);
    bytes_add(out, frame->data.at, frame->data.n);
}

bool frame_number(struct part data, uint32_t *number)
{
    if (data.n < NUMBER_BYTES)
        return false;
    *number = (uint32_t)bytes_number(data.at, NUMBER_BYTES);
    return true;
}

/* The field of a station: a text that a zero byte ends. What is no station is none: some kinds name nobody. */
static bool read_station(const uint8_t *field, struct station *station)
{
    const uint8_t *end = memchr(field, 0, STATION_ROOM);

    if (end)
        station_read((struct part){ field, (size_t)(end - field) }, station);
    return end != NULL;
}

static bool is_letter(uint8_t byte)
{
    return (byte >= 'A' && byte <= 'Z') || (byte >= 'a' && byte <= 'z');
}

const char *frame_read(struct part bytes, struct frame *frame, size_t *size)
{
    uint32_t length;

    *size = 0;
    memset(frame, 0, sizeof *frame);
    if (bytes.n < HEADER)
        return NULL;
    frame->radio = bytes.at[AT_RADIO];
    frame->kind = bytes.at[AT_KIND];
    frame_number((struct part){ bytes.at + AT_LENGTH, NUMBER_BYTES }, &length);
    if (!is_letter(frame->kind))
        return "a frame whose kind is no letter";
    if (length > FRAME_MAX_DATA)
        return "a frame that is too long";
    if (!read_station(bytes.at + AT_FROM, &frame->from) || !read_station(bytes.at + AT_TO, &frame->to))
        return "a frame with a callsign that doesn't end";
    if (bytes.n - HEADER < length)
        return NULL;
    frame->data = (struct part){ bytes.at + HEADER, length };
    *size = HEADER + length;
    return NULL;
}

struct part frame_text(const struct frame *frame)
{
    struct part text = frame->data;

    return part_until(&text, 0);
}
