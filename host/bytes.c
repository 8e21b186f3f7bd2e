#include "bytes.h"
#include "say.h"

#include <stdlib.h>
#include <string.h>

#define MOST_DIGITS 9 /* such a number fits a long, whatever the machine */

static void make_room(struct bytes *store, size_t n)
{
    size_t room = store->room ? store->room : 256;
    uint8_t *at;

    while (room - store->n < n) {
        if (room > SIZE_MAX / 2)
            give_up("no memory");
        room *= 2;
    }
    if (room == store->room)
        return;
    at = realloc(store->at, room);
    if (!at)
        give_up("no memory");
    store->at = at;
    store->room = room;
}

void bytes_add(struct bytes *store, const void *from, size_t n)
{
    make_room(store, n);
    if (n)
        memcpy(store->at + store->n, from, n);
    store->n += n;
}

uint8_t *bytes_zeros(struct bytes *store, size_t n)
{
    uint8_t *at;

    make_room(store, n);
    at = store->at + store->n;
    memset(at, 0, n);
    store->n += n;
    return at;
}

void bytes_free(struct bytes *store)
{
    free(store->at);
    memset(store, 0, sizeof *store);
}

size_t bytes_number(const uint8_t *at, size_t n)
{
    size_t value = 0;

    while (n--)
        value = value << 8 | at[n];
    return value;
}

struct part part_of(const char *text)
{
    struct part part = { (const uint8_t *)text, strlen(text) };

    return part;
}

struct part part_all(const struct bytes *store)
{
    struct part part = { store->at, store->n };

    return part;
}

bool part_is(struct part part, const char *text)
{
    return part.n == strlen(text) && memcmp(part.at, text, part.n) == 0;
}

bool part_same(struct part a, struct part b)
{
    return a.n == b.n && (!a.n || memcmp(a.at, b.at, a.n) == 0);
}

static int lower(int byte)
{
    return byte >= 'A' && byte <= 'Z' ? byte - 'A' + 'a' : byte;
}

bool part_names(struct part part, const char *text)
{
    size_t i;

    if (part.n != strlen(text))
        return false;
    for (i = 0; i < part.n; i++) {
        if (lower(part.at[i]) != lower((unsigned char)text[i]))
            return false;
    }
    return true;
}

static bool is_white(uint8_t byte)
{
    return byte == ' ' || byte == '\t';
}

struct part part_trimmed(struct part part)
{
    while (part.n && is_white(part.at[0])) {
        part.at++;
        part.n--;
    }
    while (part.n && is_white(part.at[part.n - 1]))
        part.n--;
    return part;
}

struct part part_until(struct part *rest, uint8_t mark)
{
    const uint8_t *found = rest->n ? memchr(rest->at, mark, rest->n) : NULL;
    struct part before = { rest->at, found ? (size_t)(found - rest->at) : rest->n };
    size_t taken = found ? before.n + 1 : before.n;

    rest->at += taken;
    rest->n -= taken;
    return before;
}

bool part_number(struct part part, long *number)
{
    size_t i;

    if (part.n < 1 || part.n > MOST_DIGITS)
        return false;
    *number = 0;
    for (i = 0; i < part.n; i++) {
        if (part.at[i] < '0' || part.at[i] > '9')
            return false;
        *number = *number * 10 + (part.at[i] - '0');
    }
    return true;
}
