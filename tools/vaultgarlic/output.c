#include "output.h"

#include <errno.h>
#include <stdio.h>
#include <string.h>

#include "status.h"

int write_answer(const void *bytes, size_t len)
{
    errno = 0;
    int written = fwrite(bytes, 1, len, stdout) == len;
    int error = errno;
    /* Bytes still held in memory are written by closing, so an error may show up there alone. */
    if (fclose(stdout) == 0 && written)
        return ANSWERED;
    if (error == 0)
        error = errno;
    fprintf(stderr, "vaultgarlic: standard output: %s\n", error != 0 ? strerror(error) : "cannot be written");
    return TROUBLE;
}
