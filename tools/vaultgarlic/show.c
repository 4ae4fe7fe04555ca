#include "show.h"

#include <inttypes.h>

/* The longest line of a package that reads has 66 bytes: `O`, an item and a coefficient of five digits, two words of
 * 24 letters, an `of` of two digits, five spaces. */
enum { SHOWN = 72 };

void show_name(FILE *to, const char *name)
{
    for (const unsigned char *c = (const unsigned char *)name; *c != 0; c++)
        putc(*c < 32 || *c == 127 ? '?' : *c, to);
}

static void show_byte(FILE *to, uint8_t byte)
{
    switch (byte) {
    case '\\':
        fputs("\\\\", to);
        break;
    case '\t':
        fputs("\\t", to);
        break;
    case '\r':
        fputs("\\r", to);
        break;
    default:
        if (byte < 32 || byte > 126)
            fprintf(to, "\\x%02x", byte);
        else
            putc(byte, to);
    }
}

void show_margin(FILE *to)
{
    fputs("      | ", to);
}

void show_line(FILE *to, uint64_t number, line l)
{
    fprintf(to, "%5" PRIu64 " | ", number);
    for (size_t i = 0; i < l.len && i < SHOWN; i++)
        show_byte(to, l.bytes[i]);
    if (l.len > SHOWN)
        fputs("...", to);
    if (l.state == UNFINISHED)
        fputs(" (unfinished)", to);
    if (l.state == MISSING)
        fputs("(missing)", to);
    putc('\n', to);
}
