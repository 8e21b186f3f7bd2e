#include "login.h"
#include "say.h"
#include "secret.h"

#include <string.h>

/* Reads byte by byte, so that nothing that follows the question is taken, and up to `limit` bytes (0: any number), of which it keeps the last. */
static bool hear(struct link *link, struct part question, long limit)
{
    struct bytes heard = { NULL, 0, 0 };
    bool found = question.n == 0;
    long count = 0;
    uint8_t byte;

    while (!found && (!limit || count++ < limit) && link_read(link, &byte, 1, true) == 1) {
        if (heard.n == question.n)
            memmove(heard.at, heard.at + 1, --heard.n);
        bytes_add(&heard, &byte, 1);
        found = heard.n == question.n && memcmp(heard.at, question.at, question.n) == 0;
    }
    bytes_free(&heard);
    return found;
}

static bool answer(struct link *link, const char *question, const char *text, long limit)
{
    if (!hear(link, part_of(question), limit)) {
        say("the partner never asked \"%s\"%s%s", question, link->over ? ": " : "", link->over ? link->over : "");
        return false;
    }
    return link_write(link, part_of(text)) && link_write(link, part_of("\r"));
}

/* A password stands in no transcript. What a mailbox says to it ("Logon Ok") is no part of the protocol, whose first byte is the SID's. */
static bool give_password(struct link *link, const char *password, long limit)
{
    bool right;

    link->secret = true;
    right = answer(link, PASSWORD_QUESTION, password, limit);
    if (right && !hear(link, part_of("["), limit)) {
        say("the partner doesn't greet us after the password%s%s", link->over ? ": " : "", link->over ? link->over : "");
        right = false;
    }
    if (right)
        link_unread(link);
    link->secret = false;
    return right;
}

bool login(struct link *link, const struct options *options)
{
    struct secret secret;

    if (options->password && !secret_read(options->password, &secret))
        return false;
    return answer(link, options->question, options->login, options->login_limit)
        && (!options->password || give_password(link, secret.text, options->login_limit));
}
