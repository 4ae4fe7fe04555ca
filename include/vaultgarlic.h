/* vaultgarlic.h: services on packages (relations, a basis, and the sums that certify it) over GF(p) and GF(256).
 *
 * Every call takes any bytes, keeps no state, allocates nothing and may run on many threads at once.
 * The caller guarantees that each pointer is valid for its length and that the output does not overlap
 * an input. A null pointer is fine with length 0.
 *
 * number is 0 where the call answered; else it is one of the refusals below, place says where, the counts
 * are 0 and the output is as it was. Output bytes behind those written keep their values.
 */
#ifndef VAULTGARLIC_H
#define VAULTGARLIC_H

#include <stddef.h>
#include <stdint.h>

#ifdef __cplusplus
extern "C" {
#endif

/* A package's list has its pairs: first the overlaps of two leading words of the basis, then the inclusions, where the
 * leading word of one polynomial stands inside that of another or equals it. `overlap` in a name below means a pair. */

/* Refusals, with the meaning of place. 9 is not used: it was given for a leading word inside another, and no refusal is
 * to have it again. */
enum {
    VG_ANSWERED = 0,
    VG_TOO_LONG = 1,       /* the package has over 65,536 bytes; 0 */
    VG_SHAPE = 2,          /* a line has the wrong shape, is unfinished or missing; line */
    VG_NOT_PRIME = 3,      /* p is neither a prime from 2 to 65,521 nor 256; 2 */
    VG_COUNTS = 4,         /* letters, gens or basis out of bounds; 2 */
    VG_BOUNDS = 5,         /* a coefficient, letter, word length, item or `of` out of bounds; line */
    VG_ORDER = 6,          /* kinds, items or words out of order; line */
    VG_TOO_MANY_TERMS = 7, /* an item's 49th term, or the 1,025th term line; line */
    VG_LEADING = 8,        /* a basis polynomial is zero; its number */
    VG_SUM_TOO_LONG = 10,  /* a sum line leaves over 512 terms of what its item still needs; line */
    VG_BASIS_SUM = 11,     /* a B sum is not the basis polynomial; its number */
    VG_RELATION_SUM = 12,  /* a G sum is not the relation; its number */
    VG_OVERLAP_SUM = 13,   /* an O sum is not the pair's difference; the pair's number */
    VG_NOT_BELOW = 14,     /* an O line is not below its pair's overlap word; line */
    VG_NO_OVERLAP = 15,    /* an O line's item is above the number of pairs; line */
    VG_FORMULA = 16,       /* the formula does not read; its line */
    VG_TOO_LARGE = 17,     /* a step leaves over 512 terms; the step, from 1 */
    VG_BUDGET = 18,        /* the budget is used and the formula can still be reduced; the budget */
    VG_NO_ROOM = 19        /* the output is too short; the bytes required */
};

typedef struct {
    uint64_t number, place;
    uint64_t overlaps; /* how many pairs there are: overlaps and inclusions */
} vg_checked;

typedef struct {
    uint64_t number, place;
    uint64_t overlaps; /* how many pairs there are: overlaps and inclusions */
    uint64_t written;  /* how many bytes were written */
} vg_listed;

typedef struct {
    uint64_t number, place;
    uint64_t steps;   /* how many steps were taken */
    uint64_t written; /* how many bytes were written */
} vg_shortened;

typedef struct {
    uint64_t number, place;
    uint64_t steps;  /* how many steps were taken */
    uint64_t member; /* 1: the formula is a sum over the relations; 0: it is not */
} vg_membership;

/* Checks the package: number 0 says that it is accepted. Judges refusals 1 to 15. */
vg_checked vg_check(const uint8_t *package, size_t package_len);

/* Writes the list of the package's pairs to out: the line `item first second shared at word`, then a line for each pair.
 * Judges refusals 1 to 8 and 19. */
vg_listed vg_list_overlaps(const uint8_t *package, size_t package_len, uint8_t *out, size_t out_len);

/* Writes the formula's short form under the package to out, in at most budget steps. Judges 1 to 15, then 16 to 19.
 * Two formulas that both get a short form get the same bytes exactly if they are equal modulo the package's relations. */
vg_shortened vg_short_form(const uint8_t *package, size_t package_len, const uint8_t *formula, size_t formula_len,
                           uint32_t budget, uint8_t *out, size_t out_len);

/* Says whether the formula is a sum over the package's relations, in at most budget steps. Judges 1 to 15, then 16 to 18. */
vg_membership vg_member(const uint8_t *package, size_t package_len, const uint8_t *formula, size_t formula_len,
                        uint32_t budget);

#ifdef __cplusplus
}
#endif

#endif
