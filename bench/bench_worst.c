/* The time of hostile files (hostile.h). Their elements have addresses; either none has a corner of the present shape,
 * so that each is read twice and the list needs no room, or every second one has, so that no two slots lie in a line,
 * and the list is refused for its room behind the first walk. Of a file of half a MiB a part is measured, up to a
 * pointer that leads elsewhere; a smaller file is measured whole, beside what its parts make. A Fixed Array has nothing
 * that can be named again. */
#define _DEFAULT_SOURCE
#include <inttypes.h>

#include "clock.h"
#include "fixed.h"
#include "hostile.h"

/* Blocks that are measured. */
enum { MEASURED = 48 };

/* The shapes of a dataset: its leading length is 0 at present, or its last one is 1 of 2. */
enum shape { NONE_PRESENT, HALF_PRESENT };

static struct cellumaq_dataset described(const struct array *a, enum shape shape, uint64_t rank)
{
    struct cellumaq_dataset d = {.file = a->bytes, .file_length = a->length, .offset_size = a->of.offset_size,
                                 .length_size = a->of.length_size, .element_bytes = 1,
                                 .order = CELLUMAQ_UNLIMITED_FIRST, .rank = rank};

    for (size_t i = 0; i < rank; i++) {
        d.chunk[i] = 1;
        d.present[i] = i == 0 ? 0 : 3;
        d.maximum[i] = i == 0 ? CELLUMAQ_UNLIMITED : 3;
    }
    if (shape == HALF_PRESENT) {
        d.present[0] = INT64_MAX;
        d.present[rank - 1] = 1;
        d.maximum[rank - 1] = 2;
    }
    return d;
}

/* The seconds of a list that is refused with an expected number, or accepted without a record. */
static double seconds(const struct cellumaq_dataset *d, cellumaq_list_function *lists, uint64_t refusal)
{
    double begin = now();
    uint64_t given = lists(d, NULL, 0, CELLUMAQ_REFUSAL);
    double end = now();

    if (given != refusal) {
        printf("refusal %" PRIu64 ", not %" PRIu64 "\n", given, refusal);
        exit(1);
    }
    return end - begin;
}

/* The seconds of a list whose published count and wrong pointer are given. */
static double hostile_seconds(unsigned u, uint64_t count, uint64_t wrong, enum shape shape, uint64_t rank)
{
    struct array a = hostile_array(u, count, wrong).array;
    struct cellumaq_dataset d = described(&a, shape, rank);
    uint64_t whole = shape == NONE_PRESENT ? CELLUMAQ_ACCEPTED : CELLUMAQ_REFUSED_LIST_TOO_SMALL;
    double taken = seconds(&d, cellumaq_list_dataset,
                           wrong < array_blocks(u) ? CELLUMAQ_REFUSED_DATA_BLOCK_SIGNATURE : whole);

    array_free(&a);
    return taken;
}

/* A hostile file: what each byte of a tested block and each element takes, and what they make for the whole list. */
static void measure(unsigned u, enum shape shape, uint64_t rank, int whole)
{
    struct array a = hostile_array(u, 0, 0).array;
    double each = (double)array_block_elements(&a.of, u), blocks = (double)array_blocks(u);
    int walks = shape == NONE_PRESENT ? 2 : 1;
    double checksum = hostile_seconds(u, (uint64_t)1 << u, MEASURED, shape, rank) / MEASURED;
    double elements = hostile_seconds(u, UINT64_MAX, MEASURED, shape, rank) / MEASURED - checksum;

    printf("%10zu %8.0f %10.0f %6" PRIu64 " %12.3f %16.1f %12.2f", a.length, blocks, each, rank,
           1e9 * checksum / (2 * each), 1e9 * elements / each, blocks * (checksum + walks * elements));
    if (whole)
        printf(" %12.2f", hostile_seconds(u, UINT64_MAX, UINT64_MAX, shape, rank));
    printf("\n");
    fflush(stdout);
    array_free(&a);
}

static void measure_clear_pages(void)
{
    struct array a = clear_pages_array();
    struct cellumaq_dataset d = described(&a, NONE_PRESENT, 1);

    printf("%zu bytes with 2^22 clear pages: %.3f s\n", a.length, seconds(&d, cellumaq_list_dataset, 0));
    array_free(&a);
}

/* No pointer is defined, and the count is the largest. */
static void measure_undefined(void)
{
    struct array a = {.of = {8, 8, 0, 8, 62, 255, 1, 32, 32}, .count = UINT64_MAX};

    array_build(&a);
    struct cellumaq_dataset d = described(&a, NONE_PRESENT, CELLUMAQ_RANK_MOST);
    printf("%zu bytes with undefined pointers, count 2^64 - 1: %.6f s\n", a.length,
           seconds(&d, cellumaq_list_dataset, 0));
    array_free(&a);
}

/* Fixed Arrays of a MiB: all of it addresses of 2 bytes, or page bits, all clear. */
static void measure_fixed(uint64_t rank, uint8_t page_exponent, uint64_t entries)
{
    struct array a = {.is_fixed = 1, .of = {2, 8, 0, 2, 0, 0, 0, 0, page_exponent}, .count = entries};

    fixed_build(&a);
    const struct structure *t = &a.structures[1];
    if (fixed_pages(&a) == 0)
        memset(a.bytes + t->start + array_head(&a.of), 1, 2 * entries);
    array_seal(&a, t->start, t->length);
    struct cellumaq_dataset d = described(&a, NONE_PRESENT, rank);
    printf("Fixed Array of %zu bytes with %" PRIu64 " %s, rank %" PRIu64 ": %.3f s\n", a.length, entries,
           fixed_pages(&a) == 0 ? "addresses" : "clear pages", rank, seconds(&d, cellumaq_fixed_list_dataset, 0));
    array_free(&a);
}

int main(void)
{
    static const uint64_t ranks[] = {1, 3, 32};

    printf("%10s %8s %10s %6s %12s %16s %12s %12s\n", "hostile", "blocks", "elements", "rank", "ns per byte",
           "ns per element", "s computed", "s measured");
    for (size_t i = 0; i < sizeof ranks / sizeof *ranks; i++) {
        measure(23, NONE_PRESENT, ranks[i], 1);
        measure(35, NONE_PRESENT, ranks[i], 0);
    }
    printf("every second slot present\n");
    for (size_t i = 1; i < sizeof ranks / sizeof *ranks; i++) {
        measure(23, HALF_PRESENT, ranks[i], 1);
        measure(35, HALF_PRESENT, ranks[i], 0);
    }
    measure_clear_pages();
    measure_undefined();
    for (size_t i = 0; i < sizeof ranks / sizeof *ranks; i++)
        measure_fixed(ranks[i], 32, 1 << 19);
    measure_fixed(1, 0, 1 << 23);
    return 0;
}
