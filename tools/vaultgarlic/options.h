/* The command line. */
#ifndef OPTIONS_H
#define OPTIONS_H

#include <stdint.h>

typedef enum { CHECK, OVERLAPS, SHORT, MEMBER, HELP, VERSION } service;

typedef struct {
    service service;
    const char *package, *formula; /* paths; formula is NULL for check and overlaps */
    uint32_t budget;
    int steps; /* whether the step count is asked for */
} options;

/* Reads the command line. 0: it is wrong, and how is told on standard error. */
int read_options(options *o, int argc, char **argv);

#endif
