#include "refusal.h"

#include <inttypes.h>
#include <stdio.h>

#include "expected.h"
#include "lines.h"
#include "listing.h"
#include "show.h"

/* The head of every message: `vaultgarlic: FILE: refused 1: `, or `vaultgarlic: FILE:4: refused 5: ` with a line. */
static void begin(const input *in, uint64_t number, uint64_t line_number)
{
    fputs("vaultgarlic: ", stderr);
    show_name(stderr, in->name);
    if (line_number != 0)
        fprintf(stderr, ":%" PRIu64, line_number);
    fprintf(stderr, ": refused %" PRIu64 ": ", number);
}

/* What is wrong with a line that does not read: that it is not there whole, or else what is given. */
static const char *fault(line l, const char *otherwise)
{
    if (l.state == MISSING)
        return "is missing";
    return l.state == UNFINISHED ? "is unfinished: no newline ends it" : otherwise;
}

/* Shows the first line of an item among the terms or among the sums, or says that there is none. */
static void show_item(const input *package, int among_sums, char kind, uint64_t item)
{
    uint64_t start = sums_start(package);
    uint64_t number = among_sums ? item_line(package, start + 1, 0, kind, item) : item_line(package, 4, start, kind, item);
    if (number != 0) {
        show_line(stderr, number, line_at(package, number));
        return;
    }
    show_margin(stderr);
    fprintf(stderr, "no %s line has %c %" PRIu64 "\n", among_sums ? "sum" : "term", kind, item);
}

/* Shows an overlap as the list has it: the names line, and the line of that item. */
static void show_overlap(const input *package, uint64_t item)
{
    const uint8_t *list;
    vg_listed a = list_overlaps(package, &list);
    uint64_t line_number = 0;
    for (uint64_t i = 0; i < a.written && line_number <= item; i++) {
        int shown = line_number == 0 || line_number == item;
        if (shown && (i == 0 || list[i - 1] == '\n'))
            show_margin(stderr);
        if (shown)
            putc(list[i], stderr);
        line_number += list[i] == '\n';
    }
}

/* The item of a sum line that reads. */
static uint64_t item_of(line l)
{
    uint64_t item = 0;
    for (size_t i = 2; i < l.len && l.bytes[i] != ' '; i++)
        item = item * 10 + (uint64_t)(l.bytes[i] - '0');
    return item;
}

/* A refusal whose place is a line of the package. */
static void tell_line(const input *package, uint64_t number, uint64_t place)
{
    const uint8_t *list;
    line l = line_at(package, place);
    begin(package, number, place);
    switch (number) {
    case VG_SHAPE:
        fprintf(stderr, "the line %s; it must be %s\n", fault(l, "has the wrong shape"), expected_shape(package, place));
        break;
    case VG_NOT_PRIME:
        fputs("p is neither a prime from 2 to 65521 nor 256\n", stderr);
        break;
    case VG_COUNTS:
        fputs("letters must be 1 to 26, gens 0 to 32, basis 0 to 64\n", stderr);
        break;
    case VG_BOUNDS:
        fputs("a coefficient, letter, word length, item or `of` is out of bounds\n", stderr);
        break;
    case VG_ORDER:
        fprintf(stderr, "out of order: %s\n", expected_order(package, place));
        show_line(stderr, place - 1, line_at(package, place - 1));
        break;
    case VG_TOO_MANY_TERMS:
        fputs("the 49th term of an item, or the 1025th term line\n", stderr);
        break;
    case VG_SUM_TOO_LONG:
        fputs("after this line, the item minus its sum so far has over 512 terms\n", stderr);
        break;
    case VG_NOT_BELOW:
        fputs("left, the leading word of `of` and right make a word that is not below the overlap word\n", stderr);
        break;
    case VG_NO_OVERLAP:
        fprintf(stderr, "there is no such overlap; the package has %" PRIu64 "\n", list_overlaps(package, &list).overlaps);
        break;
    }
    if (number == VG_NOT_BELOW)
        show_overlap(package, item_of(l));
    show_line(stderr, place, l);
    if (number == VG_BOUNDS)
        show_bounds(package);
}

/* A refusal whose place is a basis polynomial, a relation or an overlap. */
static void tell_item(const input *package, uint64_t number, uint64_t place)
{
    begin(package, number, 0);
    switch (number) {
    case VG_LEADING:
        fprintf(stderr, "B %" PRIu64 " is the zero polynomial\n", place);
        show_item(package, 0, 'B', place);
        break;
    case VG_BASIS_SUM:
        fprintf(stderr, "B %" PRIu64 " is not the sum over the relations that its B lines give\n", place);
        show_item(package, 0, 'B', place);
        show_item(package, 1, 'B', place);
        break;
    case VG_RELATION_SUM:
        fprintf(stderr, "G %" PRIu64 " is not the sum over the basis that its G lines give\n", place);
        show_item(package, 0, 'G', place);
        show_item(package, 1, 'G', place);
        break;
    case VG_OVERLAP_SUM:
        fprintf(stderr, "the difference of overlap %" PRIu64 " is not the sum that its O lines give\n", place);
        show_overlap(package, place);
        show_item(package, 1, 'O', place);
        break;
    }
}

/* A refusal of a formula under an accepted package. */
static void tell_formula(const input *formula, uint64_t number, uint64_t place)
{
    begin(formula, number, number == VG_FORMULA ? place : 0);
    switch (number) {
    case VG_FORMULA: {
        line l = line_at(formula, place);
        fprintf(stderr, "the line %s; it must be %s\n", fault(l, "does not read"),
                place == 1 ? "`coef word`" : "a term in bounds, below the one before, and not the 49th");
        show_line(stderr, place, l);
        break;
    }
    case VG_TOO_LARGE:
        fprintf(stderr, "step %" PRIu64 " leaves over 512 terms\n", place);
        break;
    case VG_BUDGET:
        fprintf(stderr, "the budget of %" PRIu64 " step%s is used, and the formula can still be reduced%s\n", place,
                place == 1 ? "" : "s", place < UINT32_MAX ? "; --budget N allows more" : "");
        break;
    }
}

void tell_refusal(const input *package, const input *formula, uint64_t number, uint64_t place)
{
    switch (number) {
    case VG_TOO_LONG:
        begin(package, number, 0);
        if (package->size != 0)
            fprintf(stderr, "a package has at most 65536 bytes, this file has %" PRIu64 "\n", package->size);
        else
            fputs("a package has at most 65536 bytes, this one has more\n", stderr);
        break;
    case VG_LEADING:
    case VG_BASIS_SUM:
    case VG_RELATION_SUM:
    case VG_OVERLAP_SUM:
        tell_item(package, number, place);
        break;
    case VG_FORMULA:
    case VG_TOO_LARGE:
    case VG_BUDGET:
        tell_formula(formula, number, place);
        break;
    case VG_SHAPE:
    case VG_NOT_PRIME:
    case VG_COUNTS:
    case VG_BOUNDS:
    case VG_ORDER:
    case VG_TOO_MANY_TERMS:
    case VG_SUM_TOO_LONG:
    case VG_NOT_BELOW:
    case VG_NO_OVERLAP:
        tell_line(package, number, place);
        break;
    default:
        begin(package, number, 0);
        fprintf(stderr, "place %" PRIu64 "\n", place);
    }
}
