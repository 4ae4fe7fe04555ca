/* guard.c: calls the library and the trial archive with buffers of exact length and compares with stored answers.
 *
 *     guard CASES
 *
 * CASES is written by `differential --write-cases CASES`; tests/oracle/src/bin/differential/casefile.rs says
 * what stands in it. Each case is called three times: with buffers from malloc, which the address sanitizer
 * watches in code that it compiled and in the functions of the C library; with buffers that end where a page
 * begins that must not be touched; and with buffers that begin where such a page ends. The last two catch any
 * access outside a buffer, in the archives too, which no sanitizer compiled.
 */
#define _DEFAULT_SOURCE
#include <stdint.h>
#include <stdio.h>
#include <stdlib.h>
#include <string.h>
#include <sys/mman.h>
#include <unistd.h>

#include "trials.h"
#include "vaultgarlic.h"

/* What a case calls: a service, or the trial of a word at a place of another or of a word that is packed. */
enum { CHECK, LISTING, SHORT_FORM, MEMBERSHIP, STANDS_AT, PACK, FUNCTIONS };
enum { EXACT, BEFORE_GUARD, BEHIND_GUARD, PLACEMENTS };

static const char *const names[FUNCTIONS] = {"check",      "listing",         "short form",
                                             "membership", "word at a place", "word packed"};
static const char *const placement_names[PLACEMENTS] = {"from malloc", "before a guard page", "behind a guard page"};

/* The ten numbers of a case, in the order of the file: 64 bits each, lowest byte first, as machines that this
 * client runs on hold them. For a word at a place the package is the word, the formula the other word, and the
 * budget the place; number and place are the two fields of the answer. A word that is packed is the package; number
 * says whether it fits, and its six numbers are what is written. */
typedef struct {
    uint64_t service, package_len, formula_len, budget, out_len;
    uint64_t number, place, count, last, written;
} head;

typedef struct {
    uint64_t number, place, count, last;
} answer;

/* The longest buffer of a case; longer ones are an error of the file. */
#define LONGEST ((size_t)8 << 20)
#define FILL 0xa5

static void stop(const char *message) {
    fprintf(stderr, "guard: %s\n", message);
    exit(2);
}

/* Memory of LONGEST bytes between two pages that must not be touched. */
static uint8_t *fenced(void) {
    size_t page = (size_t)sysconf(_SC_PAGESIZE);
    uint8_t *all = mmap(NULL, LONGEST + 2 * page, PROT_NONE, MAP_PRIVATE | MAP_ANONYMOUS, -1, 0);
    if (all == MAP_FAILED || mprotect(all + page, LONGEST, PROT_READ | PROT_WRITE) != 0)
        stop("no memory between guard pages");
    return all + page;
}

/* A buffer of exactly len bytes. For len 0, malloc's place gives NULL where `null` says so. */
static uint8_t *place_buffer(int placement, uint8_t *fence, size_t len, int null) {
    if (placement == BEFORE_GUARD)
        return fence + LONGEST - len;
    if (placement == BEHIND_GUARD)
        return fence;
    if (len == 0 && null)
        return NULL;
    uint8_t *buffer = malloc(len);
    if (buffer == NULL)
        stop("no memory");
    return buffer;
}

static answer call(const head *h, const uint8_t *package, const uint8_t *formula, uint8_t *out) {
    switch (h->service) {
    case CHECK: {
        vg_checked r = vg_check(package, h->package_len);
        return (answer){r.number, r.place, r.overlaps, 0};
    }
    case LISTING: {
        vg_listed r = vg_list_overlaps(package, h->package_len, out, h->out_len);
        return (answer){r.number, r.place, r.overlaps, r.written};
    }
    case SHORT_FORM: {
        vg_shortened r = vg_short_form(package, h->package_len, formula, h->formula_len, (uint32_t)h->budget, out,
                                       h->out_len);
        return (answer){r.number, r.place, r.steps, r.written};
    }
    case MEMBERSHIP: {
        vg_membership r = vg_member(package, h->package_len, formula, h->formula_len, (uint32_t)h->budget);
        return (answer){r.number, r.place, r.steps, r.member};
    }
    case STANDS_AT: {
        vg_trial_stood r = vg_trial_stands_at(package, h->package_len, formula, h->formula_len, h->budget);
        return (answer){r.stands, r.compared, 0, 0};
    }
    default: {
        vg_trial_packed r = vg_trial_pack(package, h->package_len);
        if (h->out_len != sizeof r.blocks)
            stop("not the room of six numbers");
        memcpy(out, r.blocks, sizeof r.blocks);
        return (answer){r.fits, 0, 0, 0};
    }
    }
}

/* Whether the output holds the stored bytes, and what it held before behind them. */
static int output_is_right(const head *h, const uint8_t *out, const uint8_t *written) {
    if (h->written != 0 && memcmp(out, written, h->written) != 0)
        return 0;
    for (size_t i = h->written; i < h->out_len; i++)
        if (out[i] != FILL)
            return 0;
    return 1;
}

/* Fills memory from the file. */
static void get(FILE *file, void *to, size_t len) {
    if (len != 0 && fread(to, 1, len, file) != len)
        stop("the file ends within a case");
}

/* A case as it stands in the file: package, formula, and the bytes written. */
static uint8_t package[LONGEST], formula[LONGEST], written[LONGEST];

/* Calls one case with buffers placed one way. 1: the answer is the stored one and the inputs are as they were. */
static int agrees(const head *h, unsigned long number, int placement, uint8_t *const fences[3]) {
    int null = number % 2 == 0;
    uint8_t *p = place_buffer(placement, fences[0], h->package_len, null);
    uint8_t *f = place_buffer(placement, fences[1], h->formula_len, null);
    uint8_t *o = place_buffer(placement, fences[2], h->out_len, null);
    if (h->package_len != 0)
        memcpy(p, package, h->package_len);
    if (h->formula_len != 0)
        memcpy(f, formula, h->formula_len);
    if (h->out_len != 0)
        memset(o, FILL, h->out_len);
    answer a = call(h, p, f, o);
    int same = a.number == h->number && a.place == h->place && a.count == h->count && a.last == h->last;
    int kept = (h->package_len == 0 || memcmp(p, package, h->package_len) == 0) &&
               (h->formula_len == 0 || memcmp(f, formula, h->formula_len) == 0);
    int right = output_is_right(h, o, written);
    if (!same || !kept || !right)
        printf("case %lu, %s, buffers %s: stored %lu %lu %lu %lu, answered %lu %lu %lu %lu%s%s\n", number,
               names[h->service], placement_names[placement], (unsigned long)h->number,
               (unsigned long)h->place, (unsigned long)h->count, (unsigned long)h->last, (unsigned long)a.number,
               (unsigned long)a.place, (unsigned long)a.count, (unsigned long)a.last,
               kept ? "" : "; an input was changed", right ? "" : "; the output differs");
    if (placement == EXACT) {
        free(p);
        free(f);
        free(o);
    }
    return same && kept && right;
}

int main(int argc, char **argv) {
    uint8_t *const fences[3] = {fenced(), fenced(), fenced()};
    FILE *file = argc == 2 ? fopen(argv[1], "rb") : NULL;
    if (file == NULL)
        stop("usage: guard CASES");
    head h;
    unsigned long cases = 0, calls = 0;
    int same = 1;
    while (same && fread(&h, sizeof h, 1, file) == 1) {
        if (h.service >= FUNCTIONS || h.package_len > LONGEST || h.formula_len > LONGEST || h.out_len > LONGEST ||
            h.written > h.out_len)
            stop("not a file of cases");
        get(file, package, h.package_len);
        get(file, formula, h.formula_len);
        get(file, written, h.written);
        cases++;
        for (int placement = EXACT; same && placement < PLACEMENTS; placement++, calls++)
            same = agrees(&h, cases, placement, fences);
    }
    fclose(file);
    if (same)
        printf("%lu cases, %lu calls, no difference\n", cases, calls);
    return !same || calls == 0;
}
