/* The list of overlaps and inclusions, in memory that is large enough for it. */
#ifndef LISTING_H
#define LISTING_H

#include "input.h"
#include "vaultgarlic.h"

/* Lists the pairs of the package. *list is where the bytes are; it is in use until the next call. The answer is
 * refusal 19 only if there is no memory for the list. */
vg_listed list_overlaps(const input *package, const uint8_t **list);

#endif
