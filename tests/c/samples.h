/* Arrays and grids that tests of the list and of the lookup share, of both kinds of index. */
#ifndef SAMPLES_H
#define SAMPLES_H

#include "dataset.h"
#include "test.h"

/* Whether the arrays are Fixed Arrays; a program of tests sets it. */
static int samples_fixed;

/* Runs a test for extensible arrays and for Fixed Arrays. */
static inline void run_both(const char *name, void (*test)(void))
{
    char text[128];

    for (samples_fixed = 0; samples_fixed <= 1; samples_fixed++) {
        snprintf(text, sizeof text, "%s%s", samples_fixed ? "fixed " : "", name);
        test_run(text, test);
    }
    samples_fixed = 0;
}

static uint32_t random_state = 1;

static inline uint32_t random_below(uint32_t n)
{
    random_state = random_state * 1664525 + 1013904223;
    return (uint32_t)(((uint64_t)random_state * n) >> 32);
}

/* Offset size, length size, client, element size, max bits, inline count, least block elements, super block minimum,
 * page exponent. A Fixed Array has the first four and the last. */
static const struct array_parameters layouts[] = {
    {8, 8, 0, 8, 32, 4, 16, 4, 10},    {8, 8, 1, 14, 32, 4, 16, 4, 10}, {2, 2, 0, 2, 10, 1, 2, 1, 1},
    {2, 4, 1, 7, 8, 0, 1, 0, 1},       {4, 2, 3, 8, 12, 3, 4, 2, 2},    {4, 8, 1, 16, 20, 255, 8, 9, 3},
    {8, 4, 0, 99, 62, 2, 128, 12, 32}, {8, 2, 255, 20, 5, 0, 1, 3, 0},  {4, 4, 0, 4, 0, 2, 1, 0, 0},
    {8, 8, 1, 12, 7, 1, 1, 32, 1},     {2, 2, 0, 0, 9, 3, 1, 2, 3},     {4, 4, 1, 13, 62, 1, 1, 0, 2},
};

/* Present shapes that end within the array, a maximum below the present shape, and last two in which the unlimited
 * dimension isn't the first. */
static const struct grid grids[] = {
    {.element_bytes = 8, .order = 1, .rank = 0},
    {.element_bytes = 4, .order = 1, .rank = 1, .chunk = {10}, .present = {95}, .has_maximum = 1,
     .maximum = {CELLUMAQ_UNLIMITED}},
    {.element_bytes = 1, .order = 0, .rank = 1, .chunk = {1}, .present = {1000000}},
    {.element_bytes = 3, .order = 1, .rank = 2, .chunk = {3, 2}, .present = {1000, 9}, .has_maximum = 1,
     .maximum = {CELLUMAQ_UNLIMITED, 10}},
    {.element_bytes = 2, .order = 0, .rank = 2, .chunk = {2, 2}, .present = {200, 11}},
    {.element_bytes = 0, .order = 0, .rank = 3, .chunk = {5, 1, 4}, .present = {70, 3, 9}, .has_maximum = 1,
     .maximum = {40, 4, 17}},
    {.element_bytes = 5, .order = 1, .rank = 2, .chunk = {10, 5}, .present = {15, 100000}, .has_maximum = 1,
     .maximum = {20, CELLUMAQ_UNLIMITED}},
    {.element_bytes = 8, .order = 1, .rank = 3, .chunk = {1, 2, 3}, .present = {4, 300, 7}, .has_maximum = 1,
     .maximum = {5, CELLUMAQ_UNLIMITED, 8}},
};
enum { LAYOUTS = sizeof layouts / sizeof *layouts, GRIDS = sizeof grids / sizeof *grids, SLOTS = 400 };

/* Without those two in row-major order. */
static inline int grids_of_kind(void)
{
    return samples_fixed ? GRIDS - 2 : GRIDS;
}

/* How many slots an array has, SLOTS at most; a Fixed Array has any number. */
static inline uint64_t slots_of(const struct array_parameters *p)
{
    return samples_fixed ? SLOTS : array_slots(p, SLOTS);
}

/* So many slots, each defined with a chance of so many in 16. */
static inline size_t random_entries(struct entry *entries, uint64_t slots, uint32_t chance)
{
    size_t n = 0;

    for (uint64_t slot = 0; slot < slots; slot++)
        if (random_below(16) < chance)
            entries[n++] = (struct entry){slot, 1 + random_below(60000), random_below(1u << 31),
                                          random_below(UINT32_MAX)};
    return n;
}

/* A small array with every kind of structure: blocks that the index block names, others, and pages, of two elements,
 * set and clear; or without pages. The last page of the Fixed Array has one element. */
static struct entry small_entries[SLOTS];

static inline struct dataset small_array(int has_pages)
{
    struct dataset s = {.array = {.is_fixed = samples_fixed, .of = {4, 4, 1, 10, 5, 1, 1, 3, has_pages ? 1 : 6},
                                  .count = samples_fixed ? 63 : 64, .entries = small_entries, .header = 5}};

    for (uint64_t slot = 0; slot < s.array.count; slot++)
        if (slot % 16 != 10 && slot % 16 != 11)
            small_entries[s.array.entry_count++] = (struct entry){slot, 100 + slot, 1000 + slot, 3};
    dataset_build(&s);
    return s;
}

/* An array with count 3 whose slots 0 and 2 are defined: in an extensible array the first inline element, and the first
 * one in a data block. */
static const struct entry worked_entries[] = {{0, 4096, 5, 6}, {2, 8192, 7, 8}};

static inline struct dataset worked(struct array_parameters of, struct grid grid)
{
    struct dataset s = {.array = {.is_fixed = samples_fixed, .of = of, .count = 3, .entries = worked_entries,
                                  .entry_count = 2},
                        .grid = grid};

    dataset_build(&s);
    return s;
}

static const struct array_parameters plain = {8, 8, 0, 8, 32, 2, 16, 4, 10}, filtered = {8, 8, 1, 14, 32, 2, 16, 4, 10};
static const struct grid line = {.element_bytes = 4, .order = 1, .rank = 1, .chunk = {10}, .present = {25},
                                 .has_maximum = 1, .maximum = {CELLUMAQ_UNLIMITED}};

#endif
