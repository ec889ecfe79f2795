/* Bytes per second of cellumaq_checksum beside lookup3 in C, compiled with -O2: same buffers, one run, taking turns. */
#define _POSIX_C_SOURCE 199309L
#include <stdio.h>
#include <stdlib.h>
#include <string.h>

#include "cellumaq.h"
#include "clock.h"
#include "lookup3.h"

static uint32_t reference(const uint8_t *bytes, size_t length)
{
    return lookup3_reference(bytes, length, 0);
}

static volatile uint32_t sink;

/* Seconds for `turns` calls, whose answers are summed up, so that none is left out. (Nothing is stored into the bytes
 * between two calls: what a load costs right behind a store depends on the widths of both, and that would be measured
 * too.) */
static double seconds(uint32_t (*checksum)(const uint8_t *, size_t), const uint8_t *bytes, size_t length, size_t turns)
{
    double begin = now();
    uint32_t sum = 0;

    for (size_t i = 0; i < turns; i++)
        sum += checksum(bytes, length);
    sink = sum;
    return now() - begin;
}

int main(void)
{
    static const size_t lengths[] = {8, 30, 150, 8192, 16 << 20};
    uint8_t *bytes = malloc(16 << 20);

    if (bytes == NULL)
        return 1;
    memset(bytes, 0xa5, 16 << 20);
    printf("%10s %14s %14s %18s\n", "bytes", "Cellumaq MB/s", "C MB/s", "Cellumaq against C");
    for (size_t k = 0; k < sizeof lengths / sizeof *lengths; k++) {
        size_t length = lengths[k], turns = ((size_t)64 << 20) / length;
        double ours = 1e9, theirs = 1e9;

        for (int round = 0; round < 15; round++) {
            double a = seconds(cellumaq_checksum, bytes, length, turns);
            double b = seconds(reference, bytes, length, turns);

            if (a < ours)
                ours = a;
            if (b < theirs)
                theirs = b;
        }
        double total = (double)length * (double)turns / 1e6;
        printf("%10zu %14.0f %14.0f %18.2f\n", length, total / ours, total / theirs, theirs / ours);
    }
    free(bytes);
    return 0;
}
