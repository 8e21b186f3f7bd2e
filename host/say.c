#include "say.h"

#include <errno.h>
#include <fcntl.h>
#include <stdarg.h>
#include <stdio.h>
#include <stdlib.h>
#include <string.h>
#include <sys/stat.h>
#include <unistd.h>

#define NOWHERE "/dev/null"

void say(const char *format, ...)
{
    va_list list;

    va_start(list, format);
    fputs("fringemole: ", stderr);
    vfprintf(stderr, format, list);
    fputc('\n', stderr);
    fflush(stderr);
    va_end(list);
}

void give_up(const char *what)
{
    say("%s", what);
    exit(FAILED);
}

static bool is_socket(int descriptor)
{
    struct stat what;

    return fstat(descriptor, &what) == 0 && S_ISSOCK(what.st_mode);
}

void say_start(void)
{
    int lowest;

    do {
        lowest = open(NOWHERE, O_RDWR);
    } while (lowest >= 0 && lowest <= STDERR_FILENO);
    if (lowest >= 0)
        close(lowest);
    if (is_socket(STDIN_FILENO))
        say_not_on(STDIN_FILENO);
    if (is_socket(STDOUT_FILENO))
        say_not_on(STDOUT_FILENO);
}

/* What we say goes to this file from now on. */
static bool turn_to(const char *file, int flags)
{
    int to = open(file, flags, S_IRUSR | S_IWUSR);
    bool right = to >= 0 && dup2(to, STDERR_FILENO) >= 0;

    if (to >= 0)
        close(to);
    return right;
}

bool say_to(const char *file)
{
    if (turn_to(file, O_WRONLY | O_APPEND | O_CREAT))
        return true;
    say("%s: %s", file, strerror(errno));
    return false;
}

void say_not_on(int link)
{
    struct stat ours, theirs;

    if (fstat(STDERR_FILENO, &ours) || fstat(link, &theirs))
        return;
    if ((ours.st_dev == theirs.st_dev && ours.st_ino == theirs.st_ino)
        || (S_ISCHR(ours.st_mode) && S_ISCHR(theirs.st_mode) && ours.st_rdev == theirs.st_rdev))
        turn_to(NOWHERE, O_WRONLY);
}
