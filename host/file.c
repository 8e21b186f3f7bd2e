#include "file.h"
#include "say.h"
#include "stop.h"

#include <errno.h>
#include <fcntl.h>
#include <string.h>
#include <unistd.h>

bool file_read(const char *name, struct bytes *into)
{
    int file = strcmp(name, "-") ? open(name, O_RDONLY | O_CLOEXEC) : STDIN_FILENO;
    uint8_t piece[65536];
    ssize_t n = -1;

    while (file >= 0 && !stop_asked() && (n = read(file, piece, sizeof piece)) > 0)
        bytes_add(into, piece, (size_t)n);
    if (n < 0 && !stop_asked())
        say("%s: %s", name, strerror(errno));
    if (file >= 0 && file != STDIN_FILENO)
        close(file);
    return n == 0;
}

static bool begins_with(struct part file, const char *mark, size_t n)
{
    return file.n >= n && memcmp(file.at, mark, n) == 0;
}

const char *file_fault(struct part file)
{
    if (begins_with(file, "\xEF\xBB\xBF", 3) || begins_with(file, "\xFF\xFE", 2) || begins_with(file, "\xFE\xFF", 2))
        return "the file begins with a byte order mark (BOM); save it without one, not as UTF-16";
    return NULL;
}
