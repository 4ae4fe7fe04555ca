#include "services.h"

#include <inttypes.h>
#include <stdio.h>
#include <string.h>

#include "input.h"
#include "listing.h"
#include "output.h"
#include "refusal.h"
#include "status.h"
#include "vaultgarlic.h"

static input package, formula;

static int refuse(uint64_t number, uint64_t place)
{
    tell_refusal(&package, &formula, number, place);
    return REFUSED;
}

static int check(void)
{
    char text[64];
    vg_checked a = vg_check(package.bytes, package.len);
    if (a.number != VG_ANSWERED)
        return refuse(a.number, a.place);
    snprintf(text, sizeof text, "accepted, %" PRIu64 " overlap%s\n", a.overlaps, a.overlaps == 1 ? "" : "s");
    return write_answer(text, strlen(text));
}

static int overlaps(void)
{
    const uint8_t *list;
    vg_listed a = list_overlaps(&package, &list);
    if (a.number == VG_NO_ROOM) {
        fprintf(stderr, "vaultgarlic: no memory for a list of %" PRIu64 " bytes\n", a.place);
        return TROUBLE;
    }
    if (a.number != VG_ANSWERED)
        return refuse(a.number, a.place);
    return write_answer(list, (size_t)a.written);
}

/* Tells the steps taken on standard error, where they are asked for, once the answer is written. */
static int with_steps(const options *o, int status, uint64_t steps)
{
    if (status == ANSWERED && o->steps)
        fprintf(stderr, "%" PRIu64 " step%s\n", steps, steps == 1 ? "" : "s");
    return status;
}

static int short_form(const options *o)
{
    /* The names line has 10 bytes, and each of at most 512 terms has at most 31: a coefficient of five digits, a space,
     * 24 letters and byte 10. So refusal 19 does not arise. */
    static uint8_t out[10 + 512 * 31];
    vg_shortened a = vg_short_form(package.bytes, package.len, formula.bytes, formula.len, o->budget, out, sizeof out);
    if (a.number != VG_ANSWERED)
        return refuse(a.number, a.place);
    return with_steps(o, write_answer(out, (size_t)a.written), a.steps);
}

static int member(const options *o)
{
    vg_membership a = vg_member(package.bytes, package.len, formula.bytes, formula.len, o->budget);
    if (a.number != VG_ANSWERED)
        return refuse(a.number, a.place);
    return with_steps(o, a.member ? write_answer("yes\n", 4) : write_answer("no\n", 3), a.steps);
}

int run_service(const options *o)
{
    if (!read_input(&package, o->package))
        return TROUBLE;
    if (o->formula != NULL && !read_input(&formula, o->formula))
        return TROUBLE;
    switch (o->service) {
    case OVERLAPS:
        return overlaps();
    case SHORT:
        return short_form(o);
    case MEMBER:
        return member(o);
    default:
        return check();
    }
}
