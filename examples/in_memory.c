/* A package in memory: lists its overlaps in a buffer of the exact size, and says which formulas are sums over its relations. */
#include <inttypes.h>
#include <stdio.h>
#include <stdlib.h>
#include <string.h>

#include "vaultgarlic.h"

static const char package[] = "p letters gens basis\n7 2 1 2\n"
                              "kind item coef word\nG 1 1 aa\nG 1 6 b\nB 1 1 aa\nB 1 6 b\nB 2 1 ab\nB 2 6 ba\n"
                              "kind item coef left of right\nB 1 1 - 1 -\nB 2 1 - 1 a\nB 2 6 a 1 -\nG 1 1 - 1 -\n"
                              "O 1 1 - 2 -\nO 2 1 - 2 a\nO 2 1 b 1 -\n";

static const uint8_t *bytes(const char *text)
{
    return (const uint8_t *)text;
}

static int refused(uint64_t number, uint64_t place)
{
    printf("refused %" PRIu64 " %" PRIu64 "\n", number, place);
    return 1;
}

/* A first call lends no byte: it is refused with VG_NO_ROOM, and place says how many bytes the list has. */
static int print_overlaps(void)
{
    vg_listed asked = vg_list_overlaps(bytes(package), strlen(package), NULL, 0);
    if (asked.number != VG_NO_ROOM)
        return refused(asked.number, asked.place);
    uint8_t *out = malloc(asked.place);
    if (out == NULL)
        return 2;
    vg_listed a = vg_list_overlaps(bytes(package), strlen(package), out, asked.place);
    fwrite(out, 1, a.written, stdout);
    free(out);
    return 0;
}

static int print_membership(const char *formula)
{
    vg_membership a = vg_member(bytes(package), strlen(package), bytes(formula), strlen(formula), 1000000);
    if (a.number != VG_ANSWERED)
        return refused(a.number, a.place);
    printf("%s after %" PRIu64 " steps\n", a.member ? "a sum over the relations" : "no such sum", a.steps);
    return 0;
}

int main(void)
{
    int status = print_overlaps();
    if (status == 0)
        status = print_membership("coef word\n1 aba\n6 bb\n");
    if (status == 0)
        status = print_membership("coef word\n1 aba\n");
    return status;
}
