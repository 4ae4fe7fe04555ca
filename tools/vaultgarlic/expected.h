/* What a package's line has to be, for messages about a line that is not. */
#ifndef EXPECTED_H
#define EXPECTED_H

#include <stdint.h>

#include "input.h"

/* The shape of the line of that number, in words. */
const char *expected_shape(const input *package, uint64_t number);

/* The order of the lines of the block in which that line is. */
const char *expected_order(const input *package, uint64_t number);

/* Shows the bounds of coefficients, letters and items that line 2 sets, as a remark under a line. */
void show_bounds(const input *package);

#endif
