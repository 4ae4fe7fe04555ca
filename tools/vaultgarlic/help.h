/* The texts of --help and --version. */
#ifndef HELP_H
#define HELP_H

extern const char help_text[], version_text[];

#endif
