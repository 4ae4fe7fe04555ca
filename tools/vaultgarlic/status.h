/* The exit status of the command. */
#ifndef STATUS_H
#define STATUS_H

enum {
    ANSWERED = 0, /* the service answered, member with yes or with no */
    REFUSED = 1,  /* the service refused the package or the formula */
    TROUBLE = 2   /* the command line is wrong, or a file could not be read or written */
};

#endif
