#include "fault.h"
#include "shelf.h"

#include <string.h>

/* The judge is the library's open, on a table of this one record. */
static bool taken(const struct message *message)
{
    struct message waiting = *message;
    struct shelf shelf;
    bool right;

    memset(waiting.states, WAITING, sizeof waiting.states);
    shelf_start(&shelf, 0, 0);
    right = shelf_add(&shelf, &waiting) && shelf_open(&shelf, 0).answer == FRINGEMOLE_OK;
    shelf_clear(&shelf);
    return right;
}

/* A message that differs from a good one in one place shows whether that place is the fault. */
static struct message good(const struct message *message)
{
    struct message one;
    struct part a = { (const uint8_t *)"A", 1 };

    memset(&one, 0, sizeof one);
    one.form = message->form;
    one.type = 'P';
    one.from = one.at = one.to = one.bid = one.title = one.name = a;
    return one;
}

static const char *fault_of_a_part(const struct message *message)
{
    struct message one = good(message);
    struct part a = one.from;
    const struct {
        struct part *place, value;
        const char *rule;
    } parts[] = {
        { &one.from, message->from, "from has 1 to 6 bytes 0x21-0x7E without @ and ." },
        { &one.at, message->at, "at has parts of 1 to 6 such bytes joined by dots, 38 bytes in all and 31 after the first dot" },
        { &one.to, message->to, "to has 1 to 6 bytes 0x21-0x7E without @ and ." },
        { &one.bid, message->bid, "a BID has 1 to 12 bytes 0x21-0xFF" },
        { &one.title, message->title, "a title has 1 to 80 bytes 0x20-0xFF" },
        { &one.name, message->name, "a file name has 1 to 80 bytes 0x20-0xFF" }
    };
    size_t i;

    for (i = 0; i < sizeof parts / sizeof parts[0]; i++) {
        *parts[i].place = parts[i].value;
        if (!taken(&one))
            return parts[i].rule;
        *parts[i].place = a;
    }
    return NULL;
}

const char *message_fault(const struct message *message)
{
    struct message one = good(message);
    const char *rule;

    if (taken(message))
        return NULL;
    if (message->form > PACKED_FILE)
        return "a form is 0 (plain text), 1 (packed message) or 2 (packed file)";
    rule = fault_of_a_part(message);
    if (rule)
        return rule;
    one.type = message->type;
    if (!taken(&one))
        return "a type is P or B";
    one = good(message);
    one.size = message->size;
    if (!taken(&one))
        return "an announced size is 0 to 999,999";
    return "a body has at most 65,535 bytes, a plain one without 0x1A";
}

bool bid_is_right(struct part bid)
{
    struct message one, plain;

    memset(&plain, 0, sizeof plain);
    one = good(&plain);
    one.bid = bid;
    return taken(&one);
}
