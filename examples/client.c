/* Prints the short form of a formula under a package: client PACKAGE FORMULA */
#include <inttypes.h>
#include <stdio.h>
#include <stdlib.h>

#include "vaultgarlic.h"

/* Reads a file, up to room bytes of it, and returns how many were read. */
static size_t read_file(const char *name, uint8_t *bytes, size_t room)
{
    FILE *f = fopen(name, "rb");
    if (f == NULL) {
        perror(name);
        exit(2);
    }
    size_t n = fread(bytes, 1, room, f);
    fclose(f);
    return n;
}

int main(int argc, char **argv)
{
    /* A package has at most 65,536 bytes; one more is read, so that a longer file is refused and not cut off. A formula that reads
     * has at most 1,498 bytes, and a short form at most 15,882. */
    static uint8_t package[65537], formula[65536], out[15882];
    if (argc != 3)
        return 2;
    size_t np = read_file(argv[1], package, sizeof package);
    size_t nf = read_file(argv[2], formula, sizeof formula);
    vg_shortened a = vg_short_form(package, np, formula, nf, 1000000, out, sizeof out);
    if (a.number != VG_ANSWERED) {
        printf("refused %" PRIu64 " %" PRIu64 "\n", a.number, a.place);
        return 1;
    }
    printf("%" PRIu64 " steps\n", a.steps);
    fwrite(out, 1, a.written, stdout);
    return 0;
}
