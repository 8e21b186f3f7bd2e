/* Loaded before the C library (LD_PRELOAD): stops the process (SIGSTOP) when it has read the first page of a base the first time, so that a
 * test can change the base meanwhile. */
#define _GNU_SOURCE
#include <dlfcn.h>
#include <signal.h>
#include <stdio.h>
#include <string.h>
#include <unistd.h>

#define HEADER 100 /* SQLite looks at these bytes alone first */

static int is_base(int file)
{
    char link[64], path[4096];
    ssize_t n;

    snprintf(link, sizeof link, "/proc/self/fd/%d", file);
    n = readlink(link, path, sizeof path - 1);
    path[n > 0 ? n : 0] = 0;
    return strstr(path, ".base") != NULL;
}

ssize_t pread64(int file, void *bytes, size_t n, off64_t at)
{
    static int stopped;
    ssize_t (*real)(int, void *, size_t, off64_t) = (ssize_t (*)(int, void *, size_t, off64_t))dlsym(RTLD_NEXT, "pread64");
    ssize_t done = real(file, bytes, n, at);

    if (!stopped && at == 0 && n > HEADER && is_base(file)) {
        stopped = 1;
        kill(getpid(), SIGSTOP);
    }
    return done;
}

ssize_t pread(int file, void *bytes, size_t n, off_t at)
{
    return pread64(file, bytes, n, at);
}
