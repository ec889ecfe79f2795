/* Lookups per second in a line of 1,000,000 chunks: of corners in order, in no order, and of one corner again and
 * again, by cellumaq_lookup and by cellumaq_lookup_dataset. */
#define _DEFAULT_SOURCE
#include <inttypes.h>

#include "clock.h"
#include "dense.h"
#include "described.h"

enum { ROUNDS = 5, LOOKUPS = 20000 };

/* The slot of lookup i. */
static uint64_t in_order(uint64_t i)
{
    return i * 41 % SLOTS_MOST;
}

static uint64_t in_no_order(uint64_t i)
{
    return (i * 2654435761u + 12345) % SLOTS_MOST;
}

static uint64_t always_one(uint64_t i)
{
    (void)i;
    return 777777;
}

/* The address of the chunk with that number. */
static uint64_t by_call(const struct call *c, const struct cellumaq_dataset *d, uint64_t slot)
{
    uint8_t corner[8];

    (void)d;
    cellumaq_put_length(corner, 0, 10 * slot);
    return call_lookup(c, corner, sizeof corner, CELLUMAQ_FOUND_ADDRESS);
}

static uint64_t by_struct(const struct call *c, const struct cellumaq_dataset *d, uint64_t slot)
{
    const uint64_t corner[] = {10 * slot};

    (void)c;
    return cellumaq_lookup_dataset(d, corner, CELLUMAQ_FOUND_ADDRESS);
}

typedef uint64_t looked_up(const struct call *, const struct cellumaq_dataset *, uint64_t);

static int measured(const char *name, const struct call *c, looked_up *lookup, uint64_t (*slot_of)(uint64_t))
{
    const struct cellumaq_dataset d = described(c);
    double best = 1e9;

    for (int round = 0; round < ROUNDS; round++) {
        uint64_t wrong = 0;
        double begin = now();

        for (uint64_t i = 0; i < LOOKUPS; i++)
            wrong += lookup(c, &d, slot_of(i)) != entries[slot_of(i)].address;
        double end = now();
        if (wrong != 0) {
            printf("%s: %" PRIu64 " wrong addresses\n", name, wrong);
            return 1;
        }
        if (end - begin < best)
            best = end - begin;
    }
    printf("%-16s %12.0f %12.0f\n", name, LOOKUPS / best, 1e9 * best / LOOKUPS);
    return 0;
}

int main(void)
{
    struct dataset s = {.array = {.of = layouts[0], .count = SLOTS_MOST, .entries = entries, .entry_count = dense()},
                        .grid = grids[1]};
    int failed = 0;

    s.grid.present[0] = 10 * SLOTS_MOST;
    array_build(&s.array);
    struct call c = dataset_call(&s);
    printf("%-16s %12s %12s\n", "lookup", "per second", "ns");
    failed |= measured("in order", &c, by_call, in_order);
    failed |= measured("in no order", &c, by_call, in_no_order);
    failed |= measured("one", &c, by_call, always_one);
    failed |= measured("one, by struct", &c, by_struct, always_one);
    array_free(&s.array);
    return failed;
}
