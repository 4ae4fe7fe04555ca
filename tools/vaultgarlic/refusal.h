/* Refusals in words. */
#ifndef REFUSAL_H
#define REFUSAL_H

#include "input.h"

/* Tells a refusal on standard error: the file and, where the place is a line, the line; the number; what it means; and
 * below it the lines that it is about. The formula is looked at for 16 to 18 alone. */
void tell_refusal(const input *package, const input *formula, uint64_t number, uint64_t place);

#endif
