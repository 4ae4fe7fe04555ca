#include "options.h"

#include <stdio.h>
#include <string.h>

#include "show.h"

enum { DEFAULT_BUDGET = 1000000 };

static const struct {
    const char *name;
    service service;
    int operands; /* behind the name */
} services[] = {{"check", CHECK, 1}, {"overlaps", OVERLAPS, 1}, {"short", SHORT, 2}, {"member", MEMBER, 2}};

/* A message about an argument. NULL where it is about the whole command line. */
static int wrong(const char *argument, const char *message)
{
    fputs("vaultgarlic: ", stderr);
    if (argument != NULL) {
        show_name(stderr, argument);
        fputs(": ", stderr);
    }
    fprintf(stderr, "%s\nvaultgarlic: `vaultgarlic --help` tells how it is called\n", message);
    return 0;
}

/* A decimal number from 0 to 4294967295: digits alone, the first one not 0 unless it is the only one. */
static int read_budget(uint32_t *budget, const char *text)
{
    uint64_t value = 0;
    const char *c = text;
    for (; *c >= '0' && *c <= '9' && value <= UINT32_MAX; c++)
        value = value * 10 + (uint64_t)(*c - '0');
    if (c == text || *c != 0 || value > UINT32_MAX || (text[0] == '0' && text[1] != 0))
        return wrong(text, "a budget is a number from 0 to 4294967295");
    *budget = (uint32_t)value;
    return 1;
}

/* What the options and operands read so far have given. */
typedef struct {
    const char *operands[3];
    int count;
    int budget_given;
} given;

/* Finds the service that the first operand names, and holds operands and options to it. */
static int settle(options *o, const given *g)
{
    size_t i = 0;
    if (g->count == 0)
        return wrong(NULL, "check, overlaps, short or member is needed");
    while (i < sizeof services / sizeof services[0] && strcmp(services[i].name, g->operands[0]) != 0)
        i++;
    if (i == sizeof services / sizeof services[0])
        return wrong(g->operands[0], "not one of check, overlaps, short, member");
    o->service = services[i].service;
    if (g->count - 1 != services[i].operands)
        return wrong(g->operands[0], services[i].operands == 1 ? "takes a package" : "takes a package and a formula");
    o->package = g->operands[1];
    o->formula = g->count == 3 ? g->operands[2] : NULL;
    if (o->formula == NULL && (g->budget_given || o->steps))
        return wrong(g->operands[0], "takes no steps: --budget and --steps are for short and member");
    if (o->formula != NULL && strcmp(o->package, "-") == 0 && strcmp(o->formula, "-") == 0)
        return wrong("-", "the package and the formula cannot both be standard input");
    return 1;
}

int read_options(options *o, int argc, char **argv)
{
    static const char budget_is[] = "--budget=";
    given g = {{NULL, NULL, NULL}, 0, 0};
    int ended = 0;
    *o = (options){CHECK, NULL, NULL, DEFAULT_BUDGET, 0};
    for (int i = 1; i < argc; i++) {
        const char *a = argv[i], *budget = NULL;
        if (ended || a[0] != '-' || a[1] == 0) {
            if (g.count == 3)
                return wrong(a, "one argument too many");
            g.operands[g.count++] = a;
            continue;
        }
        if (strcmp(a, "--help") == 0 || strcmp(a, "--version") == 0) {
            o->service = a[2] == 'h' ? HELP : VERSION;
            return 1;
        }
        if (strcmp(a, "--") == 0) {
            ended = 1;
        } else if (strcmp(a, "--steps") == 0) {
            o->steps = 1;
        } else if (strcmp(a, "--budget") == 0) {
            if (++i == argc)
                return wrong(a, "a number is needed behind it");
            budget = argv[i];
        } else if (strncmp(a, budget_is, sizeof budget_is - 1) == 0) {
            budget = a + sizeof budget_is - 1;
        } else {
            return wrong(a, "unknown option");
        }
        if (budget != NULL) {
            if (!read_budget(&o->budget, budget))
                return 0;
            g.budget_given = 1;
        }
    }
    return settle(o, &g);
}
