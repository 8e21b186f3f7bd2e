#include "text.h"
#include "say.h"

/* How many bytes the UTF-8 letter at the front has; 0 if there is none, or a control. */
static size_t letter(struct part bytes)
{
    static const uint32_t least[5] = { 0, 0, 0xA0, 0x800, 0x10000 };
    uint8_t first = bytes.at[0];
    size_t n = first >= 0xF0 ? 4 : first >= 0xE0 ? 3 : 2, i;
    uint32_t code = first & (0x7Fu >> n);

    if (first < 0xC2 || first > 0xF4 || n > bytes.n)
        return 0;
    for (i = 1; i < n; i++) {
        if ((bytes.at[i] & 0xC0) != 0x80)
            return 0;
        code = code << 6 | (bytes.at[i] & 0x3F);
    }
    if (code < least[n] || code > 0x10FFFF || (code >= 0xD800 && code <= 0xDFFF))
        return 0;
    return n;
}

static bool printable(uint8_t byte)
{
    return byte >= 0x20 && byte < 0x7F;
}

static bool is_text(struct part bytes)
{
    while (bytes.n) {
        size_t n = letter(bytes);
        if (!n && !printable(bytes.at[0]) && bytes.at[0] != '\r' && bytes.at[0] != '\n')
            return false;
        n += !n;
        bytes.at += n;
        bytes.n -= n;
    }
    return true;
}

static size_t show_byte(FILE *to, uint8_t byte)
{
    if (byte == '\\')
        return (size_t)fprintf(to, "\\\\");
    if (byte == '\r')
        return (size_t)fprintf(to, "\\r");
    if (byte == '\n')
        return (size_t)fprintf(to, "\\n");
    return (size_t)fprintf(to, printable(byte) ? "%c" : "\\x%02X", byte);
}

size_t text_show(FILE *to, struct part bytes)
{
    bool text = is_text(bytes);
    size_t columns = 0;

    while (bytes.n) {
        size_t n = text ? letter(bytes) : 0;
        columns += n ? 1 : show_byte(to, bytes.at[0]);
        fwrite(bytes.at, 1, n, to);
        n += !n;
        bytes.at += n;
        bytes.n -= n;
    }
    return columns;
}

char *text_copy(struct part bytes)
{
    char *text = NULL;
    size_t n;
    FILE *to = open_memstream(&text, &n);

    if (to)
        text_show(to, bytes);
    if (!to || fclose(to))
        give_up("no memory");
    return text;
}
