/* The bytes of a package or of a formula, from a file or from standard input. */
#ifndef INPUT_H
#define INPUT_H

#include <stddef.h>
#include <stdint.h>

/* A package has at most this many bytes. One more is read, which shows that a file is too long. */
#define PACKAGE_LIMIT 65536

typedef struct {
    const char *name; /* as messages show it */
    uint64_t size;    /* bytes in the whole file, where that is known and over the limit; else 0 */
    size_t len;       /* bytes read */
    uint8_t bytes[PACKAGE_LIMIT + 1];
} input;

/* Reads the file, or standard input for `-`, up to one byte over the limit. A formula that reads has at most
 * 48 lines of at most 31 bytes behind its names line, so what is left out of a longer one, which is refused in
 * line 50 at the latest, changes no answer. 0: the file could not be read, and why is told on standard error. */
int read_input(input *in, const char *path);

#endif
