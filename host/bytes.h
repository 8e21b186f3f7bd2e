/* Bytes: a part that lies somewhere else, and a store that grows. */
#ifndef BYTES_H
#define BYTES_H

#include <stdbool.h>
#include <stddef.h>
#include <stdint.h>

/* A number that a macro has, as text in a literal. */
#define TEXT_OF(number) AS_WRITTEN(number)
#define AS_WRITTEN(number) #number

struct part {
    const uint8_t *at;
    size_t n;
};

struct bytes {
    uint8_t *at;
    size_t n, room;
};

/* Both end the program if there is no memory: a host that ends at any moment loses nothing. */
void bytes_add(struct bytes *store, const void *from, size_t n);
/* Adds n zero bytes and says where they begin. */
uint8_t *bytes_zeros(struct bytes *store, size_t n);
void bytes_free(struct bytes *store);

/* A number of so many bytes, little end first. */
size_t bytes_number(const uint8_t *at, size_t n);

struct part part_of(const char *text);
struct part part_all(const struct bytes *store);
bool part_is(struct part part, const char *text);
bool part_same(struct part a, struct part b);
/* part_is, A-Z and a-z taken as one. */
bool part_names(struct part part, const char *text);
/* Without spaces and tabs at both ends. */
struct part part_trimmed(struct part part);
/* Takes off what stands before the mark, and the mark; all of it if there is none. */
struct part part_until(struct part *rest, uint8_t mark);
/* 1 to 9 digits and nothing else. */
bool part_number(struct part part, long *number);

#endif
