/* Places of session memory that no host needs, so that the header has them not, and numbers that stand there: docs/MEMORY.md, by its names and
 * those of the proved crates. tests/places holds them to these. */
#ifndef PLACES_H
#define PLACES_H

#define PLACES_FRAMED 62
#define PLACES_FIRST 64
#define PLACES_OURS 69
#define PLACES_SUM 91
#define PLACES_LINE_LENGTH 92
#define PLACES_LEFT 94
#define PLACES_POS 100
#define PLACES_USED 108
#define PLACES_BLOCK_SUM 116
#define PLACES_NUMBERS_END 129
#define PLACES_ARRAYS 160
#define PLACES_ARRAYS_END 920

/* What is awaited, at FRINGEMOLE_SESSION_PHASE. */
#define PHASE_PROMPT 2

/* What waits first, at PLACES_FIRST. */
#define PHASE_PIECE_NONE 0
#define PHASE_PIECE_PROTOCOL_ERROR 4

#endif
