/* Moments and times, in milliseconds: 64 bits whatever the machine's long, from a clock that nobody sets. */
#ifndef MOMENT_H
#define MOMENT_H

#include <stdint.h>

typedef int64_t milliseconds;

#define SECOND ((milliseconds)1000)

milliseconds moment_now(void);
/* Sleeps so long, whatever signals come. */
void moment_sleep(milliseconds time);

#endif
