/* Showing bytes that may be anything on a terminal. */
#ifndef SHOW_H
#define SHOW_H

#include <stdio.h>

#include "lines.h"

/* A file's name, each control character as `?`. */
void show_name(FILE *to, const char *name);

/* A line behind its number, as `    4 | G 1 7 aa`. Bytes that are no printing ASCII characters, and the backslash,
 * are written as C writes them in a string (`\r`, `\x80`); a long line is cut and ends with `...`; an unfinished
 * or missing line is marked. */
void show_line(FILE *to, uint64_t number, line l);

/* A remark under the lines shown, behind the same margin. */
void show_margin(FILE *to);

#endif
