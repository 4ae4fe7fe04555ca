#include "expected.h"

#include <stdio.h>
#include <string.h>

#include "lines.h"
#include "show.h"

/* Whether a line of that number stands in block 3. */
static int in_sums(const input *package, uint64_t number)
{
    uint64_t start = sums_start(package);
    return start != 0 && number > start;
}

const char *expected_order(const input *package, uint64_t number)
{
    return in_sums(package, number)
               ? "B before G before O, items not falling"
               : "G before B, items not falling, in an item each word below the one before (a is above b)";
}

const char *expected_shape(const input *package, uint64_t number)
{
    if (number == 1)
        return "`p letters gens basis`";
    if (number == 2)
        return "four numbers: p, letters, gens, basis";
    if (number == 3)
        return "`kind item coef word`";
    if (in_sums(package, number))
        return "`B item coef left of right`, or G or O for B";
    return "`G item coef word`, or B for G, or the names line `kind item coef left of right`";
}

static void show_items(char kind, unsigned count)
{
    if (count == 0)
        fprintf(stderr, "; no %c", kind);
    else
        fprintf(stderr, "; %c 1 to %u", kind, count);
}

void show_bounds(const input *package)
{
    char text[32] = "";
    unsigned p, letters, gens, basis;
    line counts = line_at(package, 2);
    if (counts.len >= sizeof text)
        return;
    memcpy(text, counts.bytes, counts.len);
    if (sscanf(text, "%u %u %u %u", &p, &letters, &gens, &basis) != 4 || p < 2 || letters < 1 || letters > 26)
        return;
    show_margin(stderr);
    fprintf(stderr, "bounds here: coef 1 to %u; letters a to %c, 24 in a word", p - 1, (char)('a' + letters - 1));
    show_items('G', gens);
    show_items('B', basis);
    putc('\n', stderr);
}
