/* The lines of a package or formula as the services count them: from 1, each ended by byte 10. */
#ifndef LINES_H
#define LINES_H

#include <stddef.h>
#include <stdint.h>

#include "input.h"

typedef enum {
    FINISHED,
    UNFINISHED, /* bytes behind the last byte 10 */
    CUT,        /* it goes on behind the bytes that were read */
    MISSING     /* the text ends before this line */
} line_state;

typedef struct {
    line_state state;
    const uint8_t *bytes; /* without the byte 10 */
    size_t len;
} line;

/* The line of that number, from 1 on. */
line line_at(const input *in, uint64_t number);

/* Whether the line is this text, byte for byte, and finished. */
int line_is(line l, const char *text);

/* The number of the names line of block 3: the first line from 4 on that is one. 0 if there is none. */
uint64_t sums_start(const input *package);

/* The first line from `from` on, and before `to` unless that is 0, that begins with this kind and item: `B 3 `.
 * 0 if there is none. */
uint64_t item_line(const input *package, uint64_t from, uint64_t to, char kind, uint64_t item);

#endif
