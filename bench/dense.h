/* A line of 1,000,000 chunks, all of them there. */
#ifndef DENSE_H
#define DENSE_H

#include "samples.h"

enum { SLOTS_MOST = 1000000 };

static struct entry entries[SLOTS_MOST];

static size_t dense(void)
{
    for (uint64_t slot = 0; slot < SLOTS_MOST; slot++)
        entries[slot] = (struct entry){slot, 4096 + 4000 * slot, 0, 0};
    return SLOTS_MOST;
}

#endif
