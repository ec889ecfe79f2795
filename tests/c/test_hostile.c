/* Files that make much of few bytes: one block named again and again, the largest count over pointers that lead
 * nowhere, millions of clear pages. */
#define _DEFAULT_SOURCE
#include "calls.h"
#include "dataset.h"
#include "hostile.h"

/* A line of chunks of one element of 3 bytes, as long as can be. */
static const struct grid endless = {.element_bytes = 3, .order = 1, .rank = 1, .chunk = {1},
                                    .present = {UINT64_MAX - 1}, .has_maximum = 1, .maximum = {CELLUMAQ_UNLIMITED}};

/* Each slot of the super block has the address that its element has in the one data block. */
static void check_again(unsigned u, uint64_t count)
{
    struct hostile h = hostile_array(u, count, UINT64_MAX);
    struct dataset s = {.array = h.array, .grid = endless};
    struct call c = dataset_call(&s);
    uint64_t first = ((uint64_t)1 << u) - 1, elements = array_block_elements(&h.array.of, u),
             all = array_blocks(u) * elements;
    uint64_t below = count <= first ? 0 : count - first < all ? count - first : all;
    uint8_t *list = malloc(all * 24), *expected = malloc(all * 24), *at = expected;

    for (uint64_t i = 0; i < below; i++) {
        uint64_t address = cellumaq_get(h.array.bytes + h.block + array_block_head(&h.array.of) + 2 * (i % elements),
                                        2);

        if (address == 0xffff)
            continue;
        array_put(at, address, 8);
        array_put(at + 8, 3, 8);
        array_put(at + 16, first + i, 8);
        at += 24;
    }
    struct cellumaq_answer a = ask_list(&c, all * 24, list, "one block again and again");
    CHECK(a.refusal == 0 && a.count == (uint64_t)(at - expected) / 24,
          "super block %u: refusal %" PRIu64 ", %" PRIu64 " records", u, a.refusal, a.count);
    CHECK(memcmp(list, expected, (size_t)(at - expected)) == 0, "super block %u: other records", u);
    for (uint64_t i = 0; i < a.count; i += 1 + i / 8)
        CHECK(call_lookup(&c, list + 24 * i + 16, 8, CELLUMAQ_FOUND_ADDRESS) == cellumaq_get(list + 24 * i, 8),
              "super block %u: another lookup", u);
    free(list);
    free(expected);
    array_free(&s.array);
}

static void again_and_again(void)
{
    for (unsigned u = 9; u <= 13; u += 2) {
        check_again(u, UINT64_MAX);
        check_again(u, ((uint64_t)1 << u) + 100);
        check_again(u, (uint64_t)1 << u);
        check_again(u, ((uint64_t)1 << u) - 1);
    }
}

static void check_empty(struct array *array, const char *what)
{
    struct dataset s = {.array = *array, .grid = endless};
    struct call c = dataset_call(&s);
    uint8_t corner[8];

    CHECK(call_list(&c, NULL, 0, CELLUMAQ_REFUSAL) == 0 && call_list(&c, NULL, 0, CELLUMAQ_COUNT) == 0,
          "%s: not an empty list", what);
    for (int bit = 0; bit < 64; bit++) {
        cellumaq_put_length(corner, 0, ((uint64_t)1 << bit) - 1);
        CHECK(call_lookup(&c, corner, 8, CELLUMAQ_REFUSAL) == 0 && call_lookup(&c, corner, 8, CELLUMAQ_COUNT) == 0,
              "%s: a chunk", what);
    }
    array_free(array);
}

/* The largest count, and nothing below it. */
static void nothing_below_the_count(void)
{
    for (uint8_t minimum = 0; minimum <= 32; minimum += 8)
        for (uint8_t least = 1; least != 0; least = (uint8_t)(least << 1)) {
            struct array a = {.of = {8, 8, 0, 8, 62, 255, least, minimum, 0}, .count = UINT64_MAX};

            array_build(&a);
            check_empty(&a, "undefined pointers");
        }
    struct array a = clear_pages_array();
    check_empty(&a, "clear pages");
}

int main(void)
{
    test_run("hostile: one block named again and again", again_and_again);
    test_run("hostile: nothing below the largest count", nothing_below_the_count);
    return test_summary();
}
