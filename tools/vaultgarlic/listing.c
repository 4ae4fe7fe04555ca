#include "listing.h"

#include <stdlib.h>

vg_listed list_overlaps(const input *package, const uint8_t **list)
{
    static uint8_t room[65536];
    static uint8_t *larger;
    *list = room;
    vg_listed a = vg_list_overlaps(package->bytes, package->len, room, sizeof room);
    if (a.number != VG_NO_ROOM)
        return a;
    /* The place of refusal 19 is the number of bytes required. */
    size_t required = (size_t)a.place;
    free(larger);
    larger = malloc(required);
    if (larger == NULL)
        return a;
    *list = larger;
    return vg_list_overlaps(package->bytes, package->len, larger, required);
}
