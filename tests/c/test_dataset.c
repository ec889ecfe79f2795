/* struct cellumaq_dataset and the functions on it. (Questions of all kinds are asked by way of it in the tests of list
 * and lookup and the random inputs.) */
#define _DEFAULT_SOURCE
#include "described.h"
#include "samples.h"

static struct cellumaq_answer ask_list_of(const struct cellumaq_dataset *d, uint8_t *list, size_t length)
{
    return described_by[samples_fixed].ask_list(d, list, length);
}

static struct cellumaq_answer ask_lookup_of(const struct cellumaq_dataset *d, const uint64_t *corner)
{
    return described_by[samples_fixed].ask_lookup(d, corner);
}

/* So many dimensions: two chunks in the first, one in each of the others, the last without an end, or with three chunks
 * where the index is a Fixed Array. */
static struct grid grid_of(uint64_t rank)
{
    struct grid g = {.element_bytes = 4, .order = CELLUMAQ_UNLIMITED_FIRST, .rank = rank, .has_maximum = 1};

    for (uint64_t d = 0; d < rank; d++) {
        int last = d + 1 == rank;

        g.chunk[d] = last ? 2 : d == 0 ? 3 : 1;
        g.present[d] = last ? 6 : d == 0 ? 5 : 1;
        g.maximum[d] = last && !samples_fixed ? CELLUMAQ_UNLIMITED : last || d == 0 ? 6 : 1;
    }
    return g;
}

/* The lookup of the corner with these offsets in the first and in the last dimension, and 0 in the others. */
static void check_corner(const struct call *c, uint64_t first, uint64_t last, struct cellumaq_answer expected,
                         const char *what)
{
    struct cellumaq_dataset d = described(c);
    uint64_t corner[DATASET_RANK] = {first};
    uint8_t bytes[8 * DATASET_RANK];

    if (c->rank > 1)
        corner[c->rank - 1] = last;
    struct cellumaq_answer a = ask_lookup_of(&d, corner);
    CHECK(memcmp(&a, &expected, sizeof a) == 0,
          "%s: %" PRIu64 " and %" PRIu64 ": refusal %" PRIu64 ", %" PRIu64 " chunks, address %" PRIu64, what, first,
          last, a.refusal, a.count, a.address);
    check_described_lookup(c, dataset_shape(corner, c->rank, bytes), what);
}

/* Chunks number 0 and 2 are there. */
static void ranks(void)
{
    static const uint64_t given[] = {0, 1, 2, 3, 32};
    const struct cellumaq_answer absent = {0}, corner_refused = {.refusal = CELLUMAQ_REFUSED_CORNER};
    char what[64];

    for (size_t i = 0; i < sizeof given / sizeof *given; i++) {
        struct dataset s = worked(plain, grid_of(given[i]));
        struct call c = dataset_call(&s);
        size_t record = cellumaq_record_size(given[i]);
        uint64_t bytes = given[i] == 0 ? 4 : given[i] == 1 ? 8 : 24;

        snprintf(what, sizeof what, "rank %" PRIu64, given[i]);
        for (size_t length = 0; length <= 3 * record; length++)
            check_described_list(&c, length, what);
        check_corner(&c, 0, 0, (struct cellumaq_answer){.count = 1, .address = 4096, .size = bytes}, what);
        if (given[i] != 0) {
            check_corner(&c, given[i] == 1 ? 4 : 0, samples_fixed ? 4 : 2,
                         (struct cellumaq_answer){.count = 1, .address = 8192, .size = bytes}, what);
            check_corner(&c, given[i] == 1 ? 2 : 3, 0, absent, what);
            check_corner(&c, 1, 0, corner_refused, what);
            check_corner(&c, 6, 6, corner_refused, what);
            struct cellumaq_dataset d = described(&c);
            struct cellumaq_answer a = ask_lookup_of(&d, NULL);
            CHECK(memcmp(&a, &corner_refused, sizeof a) == 0, "%s, no corner: refusal %" PRIu64, what, a.refusal);
        }
        array_free(&s.array);
    }
}

/* No length and no offset is looked at where the rank is too large, whatever 8 * rank would be. */
static void ranks_over_32(void)
{
    const uint64_t given[] = {33,        34, 256, ((uint64_t)1 << 32) + 1, (uint64_t)1 << 61, ((uint64_t)1 << 61) + 1,
                              UINT64_MAX};
    const struct cellumaq_answer refused = {.refusal = CELLUMAQ_REFUSED_RANK};
    struct dataset s = worked(plain, grid_of(32));
    uint8_t list[1000];
    char what[64];

    for (size_t i = 0; i < sizeof given / sizeof *given; i++) {
        struct call c = dataset_call(&s);

        c.rank = given[i];
        snprintf(what, sizeof what, "rank %" PRIu64, given[i]);
        check_described_list(&c, sizeof list, what);
        check_described_lookup(&c, (struct slice){NULL, 0}, what);
        struct cellumaq_dataset d = described(&c);
        struct cellumaq_answer a = ask_list_of(&d, list, sizeof list), b = ask_lookup_of(&d, NULL);
        CHECK(memcmp(&a, &refused, sizeof a) == 0 && memcmp(&b, &refused, sizeof b) == 0,
              "%s: refusals %" PRIu64 " and %" PRIu64, what, a.refusal, b.refusal);
    }
    array_free(&s.array);
}

/* NULL is a slice without bytes. */
static void null_slices(void)
{
    const struct cellumaq_answer no_file = {.refusal = CELLUMAQ_REFUSED_PAST_END, .first = samples_fixed ? 28 : 72},
                                 no_list = {.refusal = CELLUMAQ_REFUSED_LIST_TOO_SMALL, .first = 2};
    struct dataset s = worked(plain, line);
    struct call c = dataset_call(&s);
    struct cellumaq_dataset d = described(&c);
    uint64_t corner[1] = {0};
    struct cellumaq_answer a = ask_list_of(&d, NULL, 0);

    CHECK(memcmp(&a, &no_list, sizeof a) == 0, "no list: refusal %" PRIu64 " with %" PRIu64, a.refusal, a.first);
    d.file = NULL;
    d.file_length = 0;
    a = ask_list_of(&d, NULL, 0);
    CHECK(memcmp(&a, &no_file, sizeof a) == 0, "no file, no list: refusal %" PRIu64, a.refusal);
    a = ask_lookup_of(&d, corner);
    CHECK(memcmp(&a, &no_file, sizeof a) == 0, "no file: refusal %" PRIu64, a.refusal);
    array_free(&s.array);
}

#define FIELD(name) #name, offsetof(struct cellumaq_dataset, name), sizeof(((struct cellumaq_dataset *)0)->name)

/* Each field that is left 0 is refused, but for the present lengths: then there is no chunk; and for the order, which
 * plays no part where the index is a Fixed Array. An array of its own, at position 100, has chunk number 5. */
static void forgotten_fields(void)
{
    const struct {
        const char *name;
        size_t offset, size;
        uint64_t list, lookup;
    } fields[] = {{"file and its length", 0, 16, 20, 20}, {FIELD(offset_size), 1, 1}, {FIELD(length_size), 2, 2},
                  {FIELD(address), samples_fixed ? 34 : 21, samples_fixed ? 34 : 21}, {FIELD(element_bytes), 30, 30},
                  {FIELD(order), samples_fixed ? 0 : 7, samples_fixed ? 0 : 7}, {FIELD(rank), 3, 3},
                  {FIELD(chunk), 6, 6}, {FIELD(present), 0, 10}, {FIELD(maximum), 5, 5}};
    static const struct entry entries[] = {{5, 4096, 0, 0}};
    struct dataset s = {.array = {.is_fixed = samples_fixed, .of = plain, .count = 6, .entries = entries,
                                  .entry_count = 1, .header = 100},
                        .grid = grids[6]};
    uint64_t corner[] = {10, 10};
    uint8_t list[100];
    size_t all = 0;

    if (samples_fixed)
        s.grid.present[1] = s.grid.maximum[1] = 15;
    dataset_build(&s);
    struct call c = dataset_call(&s);
    struct cellumaq_dataset whole = described(&c);
    CHECK(ask_list_of(&whole, list, sizeof list).count == 1 && ask_lookup_of(&whole, corner).address == 4096,
          "no chunk at (10, 10)");
    for (size_t i = 0; i < sizeof fields / sizeof *fields; i++) {
        struct cellumaq_dataset d = whole;
        uint64_t there = samples_fixed && strcmp(fields[i].name, "order") == 0;

        memset((uint8_t *)&d + fields[i].offset, 0, fields[i].size);
        struct cellumaq_answer a = ask_list_of(&d, list, sizeof list), b = ask_lookup_of(&d, corner);
        CHECK(a.count == there && a.refusal == fields[i].list, "%s: refusal %" PRIu64 " of the list", fields[i].name,
              a.refusal);
        CHECK(b.count == there && b.refusal == fields[i].lookup, "%s: refusal %" PRIu64 " of the lookup",
              fields[i].name, b.refusal);
        all += fields[i].size;
    }
    CHECK(all == sizeof whole, "a field isn't among them");
    array_free(&s.array);
}

/* Lengths that fit no dataset: one more than the rank says, and any maximum that is below the present one. */
static void lengths_that_do_not_fit(void)
{
    struct dataset s = worked(plain, grid_of(3));
    struct call c = dataset_call(&s);
    const struct cellumaq_dataset whole = described(&c);

    for (uint64_t i = 0; i < 3; i++) {
        struct cellumaq_dataset d = whole;

        d.rank = i;
        CHECK(ask_list_of(&d, NULL, 0).refusal == CELLUMAQ_REFUSED_RANK, "rank %" PRIu64 " of three lengths", i);
        for (int shape = 0; shape < 3; shape++) {
            d = whole;
            (shape == 0 ? d.chunk : shape == 1 ? d.present : d.maximum)[3] = i + 1;
            CHECK(ask_list_of(&d, NULL, 0).refusal == CELLUMAQ_REFUSED_RANK, "a fourth length of shape %d", shape);
        }
        d = whole;
        d.maximum[i] = d.present[i];
        CHECK(ask_list_of(&d, NULL, 0).refusal == CELLUMAQ_REFUSED_LIST_TOO_SMALL,
              "maximum %" PRIu64 " as at present", i);
        d.maximum[i]--;
        CHECK(ask_list_of(&d, NULL, 0).refusal == CELLUMAQ_REFUSED_MAXIMUM_RANK,
              "maximum %" PRIu64 " below the present length", i);
    }
    array_free(&s.array);
}

/* The order plays no part where the index is a Fixed Array. */
static void orders(void)
{
    static const uint64_t given[] = {0, 1, 2, 256, UINT64_MAX};
    struct dataset s = worked(plain, grid_of(2));
    struct call c = dataset_call(&s);
    uint64_t corner[] = {0, 4};
    uint8_t list[64];

    for (size_t i = 0; i < sizeof given / sizeof *given; i++) {
        c.order = given[i];
        struct cellumaq_dataset d = described(&c);
        CHECK(ask_list_of(&d, list, sizeof list).count == 2 && ask_lookup_of(&d, corner).address == 8192,
              "order %" PRIu64 ": another list or chunk", given[i]);
    }
    array_free(&s.array);
}

int main(void)
{
    run_both("dataset: ranks", ranks);
    run_both("dataset: ranks over 32", ranks_over_32);
    run_both("dataset: NULL", null_slices);
    run_both("dataset: forgotten fields", forgotten_fields);
    run_both("dataset: lengths that don't fit", lengths_that_do_not_fit);
    samples_fixed = 1;
    test_run("fixed dataset: orders", orders);
    return test_summary();
}
