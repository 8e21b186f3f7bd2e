#include "secret.h"
#include "say.h"

#include <errno.h>
#include <stdio.h>
#include <string.h>

static bool first_line(FILE *file, const char *name, struct secret *secret)
{
    size_t n;

    if (!fgets(secret->text, sizeof secret->text, file)) {
        say("%s: no password in it", name);
        return false;
    }
    n = strcspn(secret->text, "\r\n");
    secret->text[n] = 0;
    if (n >= 1 && n <= PARTNER_MAX_PASSWORD)
        return true;
    say("%s: a password has 1 to %d bytes", name, PARTNER_MAX_PASSWORD);
    return false;
}

bool secret_read(const char *file, struct secret *secret)
{
    FILE *from;
    bool right;

    if (!strcmp(file, "-"))
        return first_line(stdin, "standard input", secret);
    from = fopen(file, "rb");
    if (!from) {
        say("%s: %s", file, strerror(errno));
        return false;
    }
    right = first_line(from, file, secret);
    fclose(from);
    return right;
}
