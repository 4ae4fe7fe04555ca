/* Standard output. */
#ifndef OUTPUT_H
#define OUTPUT_H

#include <stddef.h>

/* Writes the bytes to standard output and closes it. Gives the exit status: ANSWERED, or TROUBLE if they could not be
 * written, which is told on standard error. */
int write_answer(const void *bytes, size_t len);

#endif
