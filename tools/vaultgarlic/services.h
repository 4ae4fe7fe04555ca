/* The four services: read the input, call the library, write the answer. */
#ifndef SERVICES_H
#define SERVICES_H

#include "options.h"

/* Runs the service that the options name, one of the four. Gives the exit status. */
int run_service(const options *o);

#endif
