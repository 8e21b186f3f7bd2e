/* Loaded before the C library (LD_PRELOAD): kills the process (SIGKILL, or the signal KILL_BY) before its KILL_AT-th call that changes a file,
 * so that a test can try every such moment. */
#define _GNU_SOURCE
#include <dlfcn.h>
#include <signal.h>
#include <stdlib.h>
#include <sys/types.h>
#include <unistd.h>

static void count(void)
{
    static int calls;
    const char *at = getenv("KILL_AT"), *by = getenv("KILL_BY");

    if (at && ++calls == atoi(at))
        kill(getpid(), by ? atoi(by) : SIGKILL);
}

#define COUNTED(answer, name, parameters, values) \
    answer name parameters \
    { \
        answer (*real) parameters; \
        *(void **)&real = dlsym(RTLD_NEXT, #name); \
        count(); \
        return real values; \
    }

COUNTED(ssize_t, write, (int file, const void *bytes, size_t n), (file, bytes, n))
COUNTED(ssize_t, pwrite, (int file, const void *bytes, size_t n, off_t at), (file, bytes, n, at))
COUNTED(ssize_t, pwrite64, (int file, const void *bytes, size_t n, off64_t at), (file, bytes, n, at))
COUNTED(int, ftruncate, (int file, off_t n), (file, n))
COUNTED(int, ftruncate64, (int file, off64_t n), (file, n))
COUNTED(int, unlink, (const char *name), (name))
COUNTED(int, unlinkat, (int folder, const char *name, int flags), (folder, name, flags))
COUNTED(int, linkat, (int a, const char *from, int b, const char *to, int flags), (a, from, b, to, flags))
COUNTED(int, fchmod, (int file, mode_t mode), (file, mode))
COUNTED(int, fsync, (int file), (file))
COUNTED(int, fdatasync, (int file), (file))
