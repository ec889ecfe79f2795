/* Nanoseconds per record of cellumaq_list and cellumaq_fixed_list beside the Rust source (build/bench/list, where
 * bench/rust could build it): the same bytes on the same machine in one run, taking turns, the best of all rounds. The
 * bytes are written to build/bench once. */
#define _DEFAULT_SOURCE
#include <inttypes.h>

#include "clock.h"
#include "dense.h"
#include "described.h"

enum { TURNS = 5, ROUNDS = 10, FIXED_SLOTS = 300000 };

/* Of every second page, a third. */
static size_t sparse(void)
{
    size_t n = 0;

    for (uint64_t slot = 0; slot < SLOTS_MOST; slot++)
        if (slot / 1024 % 2 == 0 && random_below(3) == 0)
            entries[n++] = (struct entry){slot, 4096 + 700 * slot, 300 + random_below(400), 0};
    return n;
}

/* One of each page, and of each smaller block. */
static size_t few(void)
{
    size_t n = 0;

    for (uint64_t slot = 244; slot < SLOTS_MOST; slot += slot < 4000 ? 128 : 1024)
        entries[n++] = (struct entry){slot, 4096 + 4000 * slot, 0, 0};
    return n;
}

/* All of 1,000,000, with sizes. */
static size_t with_sizes(void)
{
    for (uint64_t slot = 0; slot < SLOTS_MOST; slot++)
        entries[slot] = (struct entry){slot, 4096 + 700 * slot, 300 + random_below(400), 0};
    return SLOTS_MOST;
}

/* Rows of 400 in a grid whose maximum has 401. */
static size_t plane(void)
{
    size_t n = 0;

    for (uint64_t slot = 0; slot < SLOTS_MOST; slot++)
        if (slot % 401 != 400)
            entries[n++] = (struct entry){slot, 4096 + 4000 * slot, 0, 0};
    return n;
}

/* A sum that is another for other records. */
static uint64_t digest(const uint8_t *list, size_t rank, uint64_t count)
{
    uint64_t sum = 0;

    for (uint64_t i = 0; i < count; i++) {
        uint64_t of_record = 3 * cellumaq_record_address(list, rank, i) +
                             5 * (uint64_t)cellumaq_record_chunk_size(list, rank, i) +
                             7 * (uint64_t)cellumaq_record_mask(list, rank, i);

        for (size_t d = 0; d < rank; d++)
            of_record += (11 + d) * cellumaq_record_offset(list, rank, i, d);
        sum += (i + 1) * of_record;
    }
    return sum;
}

/* The best of some rounds; the list is cleared before each. */
static double seconds(cellumaq_list_function *lists, const struct cellumaq_dataset *d, uint8_t *list, size_t length,
                      uint64_t *count)
{
    double best = 1e9;

    for (int round = 0; round < ROUNDS; round++) {
        memset(list, 0, length);
        double begin = now();
        *count = lists(d, list, length, CELLUMAQ_COUNT);
        double end = now();

        if (end - begin < best)
            best = end - begin;
    }
    return best;
}

static void print_shape(FILE *command, const uint64_t *lengths, uint64_t rank)
{
    for (uint64_t d = 0; d < rank; d++)
        fprintf(command, "%c%" PRIu64, d == 0 ? ' ' : ',', lengths[d]);
}

/* The same by the Rust, or a negative number where it isn't there. */
static double rust_seconds(const struct dataset *s, const char *path, uint64_t *count, uint64_t *sum)
{
    char *command = NULL;
    size_t length;
    FILE *text = open_memstream(&command, &length);
    double best = -1;

    fprintf(text, "build/bench/list %s %u %u %zu %" PRIu64 " %" PRIu64 " %d", path, s->array.of.offset_size,
            s->array.of.length_size, s->array.header, s->grid.element_bytes, s->grid.order, ROUNDS);
    print_shape(text, s->grid.chunk, s->grid.rank);
    print_shape(text, s->grid.present, s->grid.rank);
    print_shape(text, s->grid.maximum, s->grid.rank);
    fclose(text);
    FILE *answer = popen(command, "r");
    if (answer == NULL || fscanf(answer, "%lf %" SCNu64 " %" SCNu64, &best, count, sum) != 3)
        best = -1;
    if (answer != NULL)
        pclose(answer);
    free(command);
    return best;
}

/* The array with so many entries. */
static int measured(const char *name, struct dataset *s, size_t entry_count, int has_rust)
{
    s->array.entry_count = entry_count;
    dataset_build(s);
    struct call c = dataset_call(s);
    struct cellumaq_dataset d = described(&c);
    size_t length = s->array.entry_count * cellumaq_record_size(s->grid.rank);
    uint8_t *list = malloc(length);
    double ours = 1e9, theirs = 1e9;
    uint64_t count = 0, rust_count, rust_sum;
    char path[128];

    snprintf(path, sizeof path, "build/bench/%s.bin", name);
    FILE *file = fopen(path, "wb");
    if (file == NULL || list == NULL || fwrite(s->array.bytes, 1, s->array.length, file) != s->array.length ||
        fclose(file) != 0) {
        printf("cannot write %s\n", path);
        return 1;
    }
    for (int turn = 0; turn < TURNS; turn++) {
        double a = seconds(described_by[c.is_fixed].list, &d, list, length, &count);

        if (a < ours)
            ours = a;
        if (!has_rust)
            continue;
        double b = rust_seconds(s, path, &rust_count, &rust_sum);
        if (b < 0 || rust_count != count || rust_sum != digest(list, s->grid.rank, count)) {
            printf("%s: the Rust has no answer, or another\n", name);
            return 1;
        }
        if (b < theirs)
            theirs = b;
    }
    if (count != s->array.entry_count) {
        printf("%s: %" PRIu64 " records, not %zu\n", name, count, s->array.entry_count);
        return 1;
    }
    printf("%-14s %10zu %10" PRIu64 " %16.1f", name, s->array.length, count, 1e9 * ours / (double)count);
    if (has_rust)
        printf(" %12.1f %10.3f", 1e9 * theirs / (double)count, ours / theirs);
    printf("\n");
    free(list);
    array_free(&s->array);
    return 0;
}

int main(void)
{
    struct dataset s = {.array = {.of = layouts[0], .count = SLOTS_MOST, .entries = entries}, .grid = grids[1]};
    FILE *rust = fopen("build/bench/list", "rb");
    int failed = 0;

    if (rust != NULL)
        fclose(rust);
    printf("%-14s %10s %10s %16s %12s %10s\n", "list", "bytes", "records", "Cellumaq ns/rec.", "Rust ns/rec.",
           "of Rust's");

    s.grid.present[0] = 10 * SLOTS_MOST;
    failed |= measured("dense", &s, dense(), rust != NULL);
    failed |= measured("few", &s, few(), rust != NULL);

    s.array.of = layouts[1];
    failed |= measured("filtered", &s, with_sizes(), rust != NULL);

    s.grid = (struct grid){.element_bytes = 4, .order = 1, .rank = 3, .chunk = {4, 8, 8},
                           .present = {4 * 10000, 80, 80}, .has_maximum = 1, .maximum = {CELLUMAQ_UNLIMITED, 80, 80}};
    failed |= measured("sparse", &s, sparse(), rust != NULL);

    s.array.of = layouts[0];
    s.grid = (struct grid){.element_bytes = 4, .order = 1, .rank = 2, .chunk = {10, 10}, .present = {10 * 2494, 4000},
                           .has_maximum = 1, .maximum = {CELLUMAQ_UNLIMITED, 4010}};
    failed |= measured("plane", &s, plane(), rust != NULL);

    s.array.is_fixed = 1;
    s.grid = (struct grid){.element_bytes = 4, .rank = 1, .chunk = {10}, .present = {10 * SLOTS_MOST},
                           .has_maximum = 1, .maximum = {10 * SLOTS_MOST}};
    failed |= measured("fixed-dense", &s, dense(), rust != NULL);
    failed |= measured("fixed-few", &s, few(), rust != NULL);

    s.array.of = layouts[1];
    s.array.count = FIXED_SLOTS;
    with_sizes();
    failed |= measured("fixed-filtered", &s, FIXED_SLOTS, rust != NULL);
    return failed;
}
