/* The numbers that the library gives back, in words. */
#ifndef REFUSAL_H
#define REFUSAL_H

const char *refusal_words(unsigned number);

#endif
