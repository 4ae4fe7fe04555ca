/* stack.c: the bytes of stack that a call of each service takes, the most over the inputs given.
 *
 *     stack PACKAGE ... -- FORMULA ...
 *
 * Each service runs on a stack of its own, which was filled with one byte before. How far down that byte is gone is what the call took, its
 * return address included. The first call is not measured: in it the C library's functions may still have to be found by the linker.
 */
#define _GNU_SOURCE
#include <stdio.h>
#include <string.h>
#include <ucontext.h>

#include "input.h"
#include "vaultgarlic.h"

enum { CHECK, LIST, SHORT_FORM, MEMBER, SERVICES };
static const char *const names[SERVICES] = {"vg_check", "vg_list_overlaps", "vg_short_form", "vg_member"};

static input package, formula;
static uint8_t out[1 << 24], stack[1 << 20];
static const uint8_t fill = 0xa5;

/* Has the context begin in the service. An answer of over 16 bytes is returned to where a pointer says that goes before the arguments; all
 * of them are handed over as 64 bits. */
static void enter(ucontext_t *context, int service)
{
    static vg_shortened answer;
    const size_t lent = sizeof out, budget = UINT32_MAX;
    switch (service) {
    case CHECK:
        makecontext(context, (void (*)(void))vg_check, 3, &answer, package.bytes, package.len);
        break;
    case LIST:
        makecontext(context, (void (*)(void))vg_list_overlaps, 5, &answer, package.bytes, package.len, out, lent);
        break;
    case SHORT_FORM:
        makecontext(context, (void (*)(void))vg_short_form, 8, &answer, package.bytes, package.len, formula.bytes, formula.len, budget, out, lent);
        break;
    case MEMBER:
        makecontext(context, (void (*)(void))vg_member, 6, &answer, package.bytes, package.len, formula.bytes, formula.len, budget);
        break;
    }
}

static size_t taken(int service)
{
    ucontext_t here, there;
    memset(stack, fill, sizeof stack);
    getcontext(&there);
    there.uc_stack.ss_sp = stack;
    there.uc_stack.ss_size = sizeof stack;
    there.uc_link = &here;
    enter(&there, service);
    const uint8_t *return_address = (const uint8_t *)there.uc_mcontext.gregs[REG_RSP], *end = stack;
    swapcontext(&here, &there);
    while (*end == fill)
        end++;
    return (size_t)(return_address + 8 - end);
}

int main(int argc, char **argv)
{
    size_t most[SERVICES] = {0};
    int packages = 1;
    while (packages < argc && strcmp(argv[packages], "--") != 0)
        packages++;
    for (int p = 1; p < packages; p++)
        for (int f = packages + 1; f < argc; f++) {
            if (!read_input(&package, argv[p]) || !read_input(&formula, argv[f]))
                return 2;
            for (int s = 0; s < SERVICES; s++) {
                taken(s);
                size_t n = taken(s);
                most[s] = n > most[s] ? n : most[s];
            }
        }
    for (int s = 0; s < SERVICES; s++)
        printf("%-17s %zu\n", names[s], most[s]);
    return 0;
}
