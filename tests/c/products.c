/* The multiplication that docs/FORMAT.md shows for GF(256), held to what that page says of it, and to the library: for all coefficients c
 * and k the short form of c a is (c times k) b where a is k b, and that of c a + k b is (c + k) b where a is b. */
#include <stdio.h>
#include <string.h>

#include "format.c"
#include "vaultgarlic.h"

static int differs(const char *what, unsigned a, unsigned b)
{
    fprintf(stderr, "%s: %u and %u\n", what, a, b);
    return 1;
}

/* 2 times 128; the powers of 2, each once; inverses; and the numbers of AES, by the zero 3 of 0x11B. */
static int by_the_page(void)
{
    int seen[256] = {0};
    unsigned power = 1, r = 3, eighth = 1;
    if (multiply(2, 128) != 29)
        return differs("2 times 128 is not 29", 2, 128);
    for (int i = 0; i < 255; i++, power = multiply(power, 2))
        if (power == 0 || power > 255 || seen[power]++)
            return differs("not another power of 2", power, (unsigned)i);
    if (power != 1)
        return differs("2^255 is not 1", power, 255);
    for (unsigned a = 1; a < 256; a++)
        if (multiply(a, inverse(a)) != 1)
            return differs("no inverse", a, inverse(a));
    if (inverse(2) != 142)
        return differs("the inverse of 2 is not 142", 2, inverse(2));
    for (int i = 0; i < 8; i++)
        eighth = multiply(eighth, r);
    unsigned square = multiply(r, r), cube = multiply(square, r), fourth = multiply(cube, r), seventh = multiply(fourth, cube);
    if ((eighth ^ fourth ^ cube ^ r ^ 1) != 0 || seventh != 255 || (fourth ^ cube ^ r ^ 1) != 28 || multiply(3, 255) != 28)
        return differs("3 is not what the page says", r, seventh);
    return 0;
}

/* The short form of the formula where a is k b, held to coef b, or to zero where coef is 0. */
static int held(unsigned k, const char *formula, unsigned coef)
{
    char package[256], expected[32];
    uint8_t out[32];
    snprintf(package, sizeof package,
             "p letters gens basis\n256 2 1 1\nkind item coef word\nG 1 1 a\nG 1 %u b\nB 1 1 a\nB 1 %u b\n"
             "kind item coef left of right\nB 1 1 - 1 -\nG 1 1 - 1 -\n",
             k, k);
    int n = snprintf(expected, sizeof expected, "coef word\n");
    if (coef != 0)
        snprintf(expected + n, sizeof expected - (size_t)n, "%u b\n", coef);
    vg_shortened a = vg_short_form((const uint8_t *)package, strlen(package), (const uint8_t *)formula, strlen(formula), 1, out, sizeof out);
    return a.number == VG_ANSWERED && a.steps == 1 && a.written == strlen(expected) && memcmp(out, expected, a.written) == 0;
}

int main(void)
{
    char formula[64];
    if (by_the_page() != 0)
        return 1;
    for (unsigned c = 1; c < 256; c++)
        for (unsigned k = 1; k < 256; k++) {
            snprintf(formula, sizeof formula, "coef word\n%u a\n", c);
            if (!held(k, formula, multiply(c, k)))
                return differs("the library multiplies otherwise", c, k);
            snprintf(formula, sizeof formula, "coef word\n%u a\n%u b\n", c, k);
            if (!held(1, formula, c ^ k))
                return differs("the library adds otherwise", c, k);
        }
    puts("65025 products and 65025 sums in GF(256)");
    return 0;
}
