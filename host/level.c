#include "level.h"

#define POLYNOMIAL 0x1021

static unsigned check_of(struct part bytes)
{
    unsigned crc = 0;
    size_t i;
    int bit;

    for (i = 0; i < bytes.n; i++) {
        crc ^= (unsigned)bytes.at[i] << 8;
        for (bit = 0; bit < 8; bit++)
            crc = (crc << 1 ^ (crc & 0x8000 ? POLYNOMIAL : 0)) & 0xFFFF;
    }
    return crc;
}

/* A body of level 1 without its check. */
static struct part text_of(struct part body)
{
    struct part text = { body.at + LEVEL_CHECK, body.n - LEVEL_CHECK };

    return text;
}

const char *level_fault(const struct message *message)
{
    struct part body = message->body;

    if (message->form == PLAIN_TEXT || message->level == 0)
        return NULL;
    if (message->level > LEVEL_LAST)
        return "a level is 0 or 1";
    if (body.n < LEVEL_CHECK || check_of(text_of(body)) != (body.at[0] | (unsigned)body.at[1] << 8))
        return "a packed text of level 1 begins with two check bytes, which are the CRC of the rest, low byte first";
    return NULL;
}

/* Added to the store. */
static struct part checked(struct bytes *store, struct part text)
{
    unsigned crc = check_of(text);
    uint8_t check[LEVEL_CHECK] = { (uint8_t)crc, (uint8_t)(crc >> 8) };
    size_t start = store->n;

    bytes_add(store, check, sizeof check);
    bytes_add(store, text.at, text.n);
    return (struct part){ store->at + start, store->n - start };
}

void level_shape(struct message *message, uint8_t level, struct bytes *store)
{
    bool announced = message->size != message->body.n;

    if (message->form == PLAIN_TEXT || message->level == level)
        return;
    message->body = level == 0 ? text_of(message->body) : checked(store, message->body);
    message->level = level;
    if (!announced)
        message->size = (uint32_t)message->body.n;
}

uint8_t level_in_force(const uint8_t *session)
{
    return session[FRINGEMOLE_SESSION_LEVEL] > 0;
}
