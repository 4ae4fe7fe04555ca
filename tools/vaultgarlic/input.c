#include "input.h"

#include <errno.h>
#include <stdio.h>
#include <string.h>

#include "show.h"

static int cannot_read(const input *in, int error)
{
    fputs("vaultgarlic: ", stderr);
    show_name(stderr, in->name);
    fprintf(stderr, ": %s\n", error != 0 ? strerror(error) : "cannot be read");
    return 0;
}

/* The size of a file that is over the limit. 0 for a pipe, a terminal or a device. */
static uint64_t size_of(FILE *file)
{
    if (fseek(file, 0, SEEK_END) != 0)
        return 0;
    long end = ftell(file);
    return end > PACKAGE_LIMIT ? (uint64_t)end : 0;
}

int read_input(input *in, const char *path)
{
    int standard = strcmp(path, "-") == 0;
    in->name = standard ? "<stdin>" : path;
    in->size = 0;
    in->len = 0;
    errno = 0;
    FILE *file = standard ? stdin : fopen(path, "rb");
    if (file == NULL)
        return cannot_read(in, errno);
    in->len = fread(in->bytes, 1, sizeof in->bytes, file);
    int failed = ferror(file), error = errno;
    if (!failed && in->len > PACKAGE_LIMIT)
        in->size = size_of(file);
    if (!standard)
        fclose(file);
    return failed ? cannot_read(in, error) : 1;
}
