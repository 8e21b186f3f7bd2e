/* Loaded before the C library (LD_PRELOAD): writes to descriptor SYNCED_TO a letter for each call that matters to what stands after a power cut, so
 * that a test can tell their order: P bytes written to a file of the base, S such a file synced, D a folder synced, W bytes on standard
 * output; E bytes written to a file that is exported, F that file synced, N its name given. The memory that SQLite shares between processes (BASE-shm) is made again after a cut and doesn't count. */
#define _GNU_SOURCE
#include <dlfcn.h>
#include <stdio.h>
#include <stdlib.h>
#include <string.h>
#include <sys/stat.h>
#include <unistd.h>

typedef ssize_t write_function(int, const void *, size_t);
typedef ssize_t place_function(int, const void *, size_t, off_t);
typedef int sync_function(int);

static void note(char letter)
{
    write_function *real = (write_function *)dlsym(RTLD_NEXT, "write");

    if (real(atoi(getenv("SYNCED_TO")), &letter, 1) != 1)
        abort();
}

static int is_folder(int file)
{
    struct stat about;

    return fstat(file, &about) == 0 && S_ISDIR(about.st_mode);
}

enum kind { OTHER, BASE, EXPORT };

static enum kind kind_of(int file)
{
    char link[64], path[4096];
    ssize_t n;

    snprintf(link, sizeof link, "/proc/self/fd/%d", file);
    n = readlink(link, path, sizeof path - 1);
    path[n > 0 ? n : 0] = 0;
    return strstr(path, ".part") ? EXPORT : strstr(path, ".base") && !strstr(path, "-shm") ? BASE : OTHER;
}

ssize_t write(int file, const void *bytes, size_t n)
{
    if (file == STDOUT_FILENO)
        note('W');
    else if (kind_of(file) != OTHER)
        note(kind_of(file) == BASE ? 'P' : 'E');
    return ((write_function *)dlsym(RTLD_NEXT, "write"))(file, bytes, n);
}

ssize_t pwrite(int file, const void *bytes, size_t n, off_t at)
{
    if (kind_of(file) == BASE)
        note('P');
    return ((place_function *)dlsym(RTLD_NEXT, "pwrite"))(file, bytes, n, at);
}

ssize_t pwrite64(int file, const void *bytes, size_t n, off_t at)
{
    return pwrite(file, bytes, n, at);
}

/* The letter comes when the call has answered: what it says is so then. */
static int sync_by(const char *name, int file)
{
    int answer = ((sync_function *)dlsym(RTLD_NEXT, name))(file);

    if (answer == 0 && (is_folder(file) || kind_of(file) != OTHER))
        note(is_folder(file) ? 'D' : kind_of(file) == BASE ? 'S' : 'F');
    return answer;
}

int fdatasync(int file)
{
    return sync_by("fdatasync", file);
}

int fsync(int file)
{
    return sync_by("fsync", file);
}

int linkat(int from_folder, const char *from, int to_folder, const char *to, int flags)
{
    int (*real)(int, const char *, int, const char *, int);

    *(void **)&real = dlsym(RTLD_NEXT, "linkat");
    note('N');
    return real(from_folder, from, to_folder, to, flags);
}
