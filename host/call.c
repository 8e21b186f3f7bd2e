#include "call.h"

#include <string.h>

#define CALL_MIN 3
#define MAX_SSID 15
#define SSID_DIGITS 2

static bool is_ssid(struct part text)
{
    long number;

    return text.n <= SSID_DIGITS && part_number(text, &number) && number <= MAX_SSID;
}

bool call_read(struct part text, struct call *call)
{
    bool dashed = text.n && memchr(text.at, '-', text.n) != NULL, letter = false, digit = false;
    struct part name = part_until(&text, '-');
    size_t i;

    memset(call, 0, sizeof *call);
    if (name.n < CALL_MIN || name.n > CALL_MAX || (dashed && !is_ssid(text)))
        return false;
    for (i = 0; i < name.n; i++) {
        uint8_t byte = name.at[i];
        bool lower = byte >= 'a' && byte <= 'z', upper = byte >= 'A' && byte <= 'Z', number = byte >= '0' && byte <= '9';
        if (!lower && !upper && !number)
            return false;
        call->text[i] = (char)(lower ? byte - 'a' + 'A' : byte);
        letter = letter || !number;
        digit = digit || number;
    }
    return letter && digit;
}
