#include "lines.h"

#include <inttypes.h>
#include <stdio.h>
#include <string.h>

/* The line that begins at this byte. */
static line line_from(const input *in, size_t begin)
{
    line l = {MISSING, in->bytes + begin, in->len - begin};
    if (l.len == 0)
        return l;
    const uint8_t *end = memchr(l.bytes, '\n', l.len);
    l.state = end != NULL ? FINISHED : in->len > PACKAGE_LIMIT ? CUT : UNFINISHED;
    if (end != NULL)
        l.len = (size_t)(end - l.bytes);
    return l;
}

/* Where the line behind this one begins. */
static size_t behind(const input *in, line l)
{
    return (size_t)(l.bytes - in->bytes) + l.len + (l.state == FINISHED);
}

line line_at(const input *in, uint64_t number)
{
    line l = line_from(in, 0);
    while (--number > 0 && l.state != MISSING)
        l = line_from(in, behind(in, l));
    return l;
}

int line_is(line l, const char *text)
{
    return l.state == FINISHED && l.len == strlen(text) && memcmp(l.bytes, text, l.len) == 0;
}

uint64_t sums_start(const input *package)
{
    uint64_t number = 1;
    for (line l = line_from(package, 0); l.state != MISSING; l = line_from(package, behind(package, l)), number++)
        if (number > 3 && line_is(l, "kind item coef left of right"))
            return number;
    return 0;
}

uint64_t item_line(const input *package, uint64_t from, uint64_t to, char kind, uint64_t item)
{
    char begin[32];
    size_t len = (size_t)snprintf(begin, sizeof begin, "%c %" PRIu64 " ", kind, item);
    uint64_t number = 1;
    for (line l = line_from(package, 0); l.state != MISSING; l = line_from(package, behind(package, l)), number++)
        if (number >= from && (to == 0 || number < to) && l.len >= len && memcmp(l.bytes, begin, len) == 0)
            return number;
    return 0;
}
