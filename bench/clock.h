/* Seconds that the processor has spent on this program, so that others on the machine matter less. The program that
 * includes this file defines _POSIX_C_SOURCE or _DEFAULT_SOURCE. */
#ifndef CLOCK_H
#define CLOCK_H

#include <time.h>

static double now(void)
{
    struct timespec t;

    clock_gettime(CLOCK_PROCESS_CPUTIME_ID, &t);
    return (double)t.tv_sec + 1e-9 * (double)t.tv_nsec;
}

#endif
