/* Every argument of cellumaq_lookup and cellumaq_fixed_lookup. */
#define _DEFAULT_SOURCE
#include "lookup_checks.h"

static void check_corner(struct dataset *s, uint64_t first, uint64_t second, uint64_t refusal, const char *what)
{
    struct call c = dataset_call(s);
    uint8_t corner[16];

    cellumaq_put_length(corner, 0, first);
    cellumaq_put_length(corner, 1, second);
    check_lookup_refusal(&c, (struct slice){corner, 16}, refusal, 0, 0, what);
}

/* Corners of another rank, unaligned, or not in the present shape. */
static void wrong_corners(void)
{
    static const size_t lengths[] = {0, 1, 7, 8, 9, 15, 17, 24, 256};
    static const uint8_t zeros[256];
    struct dataset s = worked(filtered, grids[3]);
    struct call c = dataset_call(&s);

    for (size_t i = 0; i < sizeof lengths / sizeof *lengths; i++)
        check_lookup_refusal(&c, (struct slice){zeros, lengths[i]}, CELLUMAQ_REFUSED_CORNER, 0, 0,
                             "a corner of another rank");
    check_corner(&s, 0, 0, 0, "the first corner");
    check_corner(&s, 999, 8, 0, "the last corner");
    check_corner(&s, 1, 0, CELLUMAQ_REFUSED_CORNER, "unaligned");
    check_corner(&s, 0, 1, CELLUMAQ_REFUSED_CORNER, "unaligned in the second dimension");
    check_corner(&s, 1002, 0, CELLUMAQ_REFUSED_CORNER, "behind the present shape");
    check_corner(&s, 0, 10, CELLUMAQ_REFUSED_CORNER, "behind the present shape in the second dimension");
    check_corner(&s, UINT64_MAX, 0, CELLUMAQ_REFUSED_CORNER, "far behind it");
    s.grid.present[1] = 0;
    check_corner(&s, 0, 0, CELLUMAQ_REFUSED_CORNER, "no corner at all");
    s.grid.chunk[1] = 0;
    check_corner(&s, 1, 0, CELLUMAQ_REFUSED_CHUNK_LENGTH, "the shapes come first");
    s.grid = grids[3];
    s.array.bytes[s.array.header + 7] = 63;
    array_seal(&s.array, s.array.header, s.array.structures[0].length);
    check_corner(&s, 1, 0, CELLUMAQ_REFUSED_CORNER, "an unaligned corner comes before the header's limits");
    check_corner(&s, 0, 0, CELLUMAQ_REFUSED_HEADER_NOT_SERVED, "the header's limits");
    array_free(&s.array);
}

/* Corners in the present shape without a slot: behind the count of a dimension that doesn't lead, or past 2^64 - 1. */
static void corners_without_slots(void)
{
    struct dataset s = worked(
        filtered,
        (struct grid){
            .order = 0, .rank = 2, .chunk = {5, 2}, .present = {70, 20}, .has_maximum = 1, .maximum = {40, 4}});
    struct call c = dataset_call(&s);
    uint8_t corner[16] = {0};

    cellumaq_put_length(corner, 0, 5);
    CHECK(call_lookup(&c, corner, 16, 4) == 8192, "slot 2");
    cellumaq_put_length(corner, 0, 0);
    cellumaq_put_length(corner, 1, 4);
    check_found(&c, corner, NULL, "slot 2 if the second dimension had no count");
    s.grid = (struct grid){
        .order = 0, .rank = 2, .chunk = {1, 1}, .present = {UINT64_MAX - 1, (uint64_t)1 << 40}, .has_maximum = 1};
    s.grid.maximum[0] = CELLUMAQ_UNLIMITED;
    s.grid.maximum[1] = (uint64_t)1 << 40;
    c = dataset_call(&s);
    memset(corner, 0, sizeof corner);
    CHECK(call_lookup(&c, corner, 16, 4) == 4096, "slot 0");
    cellumaq_put_length(corner, 0, (uint64_t)1 << 24);
    check_found(&c, corner, NULL, "slot 2^64");
    cellumaq_put_length(corner, 1, 2);
    check_found(&c, corner, NULL, "slot 2^64 + 2");
    array_free(&s.array);
}

/* At rank 0 there is one corner, and its slot is 0. */
static void rank_0(void)
{
    struct dataset s = worked(plain, grids[0]);
    struct call c = dataset_call(&s);
    struct cellumaq_answer a = ask_lookup(&c, (struct slice){NULL, 0}, "slot 0");

    CHECK(a.count == 1 && a.address == 4096 && a.size == 8 && a.mask == 0, "slot 0: %" PRIu64 " records", a.count);
    array_free(&s.array);
    s.array.entries++;
    s.array.entry_count--;
    dataset_build(&s);
    c = dataset_call(&s);
    a = ask_lookup(&c, (struct slice){NULL, 0}, "slot 0 without an address");
    CHECK(a.refusal == 0 && a.count == 0, "slot 0 without an address: refusal %" PRIu64, a.refusal);
    array_free(&s.array);
}

/* The arguments that list and lookup share. */
static void shared_arguments(void)
{
    static const uint64_t wide[] = {0,         1, 3, 256, 258, 264, ((uint64_t)1 << 32) + 1, ((uint64_t)1 << 61) + 1,
                                    UINT64_MAX};
    static const uint8_t zero[8];
    struct slice corner = {zero, 8};
    struct dataset s = worked(plain, line);
    char what[64];

    array_more(&s.array, 3000, 0);
    for (size_t i = 0; i < sizeof wide / sizeof *wide; i++) {
        struct call c = dataset_call(&s);

        snprintf(what, sizeof what, "argument %" PRIu64, wide[i]);
        c.offset_size = wide[i];
        if (wide[i] < 1000)
            check_lookup_refusal(&c, corner, CELLUMAQ_REFUSED_OFFSET_SIZE, wide[i], 0, what);
        c = dataset_call(&s);
        c.length_size = wide[i];
        if (wide[i] < 300)
            check_lookup_refusal(&c, corner, CELLUMAQ_REFUSED_LENGTH_SIZE, wide[i], 0, what);
        c = dataset_call(&s);
        c.rank = wide[i];
        if (wide[i] != 1)
            check_lookup_refusal(&c, corner, CELLUMAQ_REFUSED_RANK, 0, 0, what);
        c = dataset_call(&s);
        c.chunk.length = c.present.length = c.maximum.length = 0;
        check_lookup_refusal(&c, corner, CELLUMAQ_REFUSED_RANK, 0, 0, what);
        c.chunk.length = 8;
        check_lookup_refusal(&c, corner, CELLUMAQ_REFUSED_PRESENT_RANK, 0, 0, what);
        c.present.length = 8;
        c.has_maximum = wide[i];
        if (wide[i] != 0)
            check_lookup_refusal(&c, corner, CELLUMAQ_REFUSED_MAXIMUM_RANK, 0, 0, what);
        else
            CHECK(ask_lookup(&c, corner, what).address == 4096, "a maximum that isn't given");
    }
    struct call c = {.is_fixed = samples_fixed, .offset_size = 8, .length_size = 8, .element_bytes = 4};
    CHECK(call_lookup(&c, NULL, 0, 0) == CELLUMAQ_REFUSED_PAST_END, "no file");
    c.file = (struct slice){s.array.bytes, s.array.length};
    CHECK(call_lookup(&c, NULL, 0, 4) == 4096, "rank 0");
    array_free(&s.array);
}

/* The order of an extensible array's grid decides over a corner's slot. */
static void orders(void)
{
    static const uint64_t given[] = {1, 2, 256, (uint64_t)1 << 32, UINT64_MAX};
    static const struct entry entries[] = {{5, 4096, 1, 2}};
    struct dataset s = {.array = {.of = filtered, .count = 6, .entries = entries, .entry_count = 1}, .grid = grids[6]};
    uint8_t corner[16];

    array_build(&s.array);
    cellumaq_put_length(corner, 0, 10);
    cellumaq_put_length(corner, 1, 10);
    for (size_t i = 0; i < sizeof given / sizeof *given; i++) {
        s.grid.order = given[i];
        struct call c = dataset_call(&s);
        struct cellumaq_answer a = ask_lookup(&c, (struct slice){corner, 16}, "the unlimited dimension first");

        CHECK(a.count == 1 && a.address == 4096 && a.size == 1 && a.mask == 2,
              "order %" PRIu64 ": corner (10, 10) isn't slot 5", given[i]);
    }
    s.grid.order = 0;
    check_corner(&s, 10, 10, CELLUMAQ_REFUSED_UNLIMITED, "row-major");
    array_free(&s.array);
}

int main(void)
{
    run_both("lookup: wrong corners", wrong_corners);
    run_both("lookup: corners without slots", corners_without_slots);
    run_both("lookup: rank 0", rank_0);
    run_both("lookup: arguments that the list has too", shared_arguments);
    test_run("lookup: orders", orders);
    return test_summary();
}
