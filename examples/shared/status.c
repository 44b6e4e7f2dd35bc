#include "status.h"

#include "program.h"

#include <errno.h>
#include <stdio.h>
#include <string.h>

int done(enum status status)
{
    if (fflush(stdout) != 0 || ferror(stdout)) {
        fprintf(stderr, "%s: standard output: %s\n", program, strerror(errno));
        return NOT_DONE;
    }
    return (int)status;
}
