/* vaultgarlic: the services on packages and formulas as a command. `vaultgarlic --help` tells how it is called. */
#include <stdio.h>
#include <string.h>

#include "help.h"
#include "options.h"
#include "output.h"
#include "services.h"
#include "status.h"

int main(int argc, char **argv)
{
    options o;
    /* Messages are put together from pieces; this way each line is written at once. */
    setvbuf(stderr, NULL, _IOLBF, BUFSIZ);
    if (!read_options(&o, argc, argv))
        return TROUBLE;
    if (o.service == HELP)
        return write_answer(help_text, strlen(help_text));
    if (o.service == VERSION)
        return write_answer(version_text, strlen(version_text));
    return run_service(&o);
}
