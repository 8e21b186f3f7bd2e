#include "moment.h"

#include <errno.h>
#include <time.h>

#define NANOSECONDS 1000000 /* of a millisecond */

milliseconds moment_now(void)
{
    struct timespec now;

    clock_gettime(CLOCK_MONOTONIC, &now);
    return (milliseconds)now.tv_sec * SECOND + now.tv_nsec / NANOSECONDS;
}

void moment_sleep(milliseconds time)
{
    struct timespec left = { (time_t)(time / SECOND), (long)(time % SECOND) * NANOSECONDS };

    while (nanosleep(&left, &left) && errno == EINTR) {
    }
}
