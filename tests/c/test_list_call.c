/* Every argument of cellumaq_list and cellumaq_fixed_list, and the header's bytes that must be right for a list. */
#define _DEFAULT_SOURCE
#include "list_checks.h"

/* A header with another byte and a right checksum. */
static void patch_header(struct array *a, size_t byte, uint8_t value)
{
    a->bytes[a->header + byte] = value;
    array_seal(a, a->header, a->structures[0].length);
}

/* The bytes of a header with these sizes. */
static unsigned __int128 header_size(uint64_t offset_size, uint64_t length_size)
{
    unsigned __int128 lengths = length_size;

    return samples_fixed ? 12 + lengths + offset_size : 16 + 6 * lengths + offset_size;
}

/* Refused with a size that isn't served, or before that where the header would end behind the file. */
static void check_size(const struct call *c, uint64_t refusal, uint64_t size, const char *what)
{
    unsigned __int128 end = header_size(c->offset_size, c->length_size);

    if (end > c->file.length)
        check_refusal(c, CELLUMAQ_REFUSED_PAST_END, end > UINT64_MAX ? UINT64_MAX : (uint64_t)end, c->file.length,
                      what);
    else
        check_refusal(c, refusal, size, 0, what);
}

/* Widths are taken as they are given: 264 is not 8. 20 comes first, by the header's size that they make. */
static void widths(void)
{
    static const uint64_t sizes[] = {0, 1, 3, 5, 6, 7, 9, 10, 16, 255, 256, 258, 260, 264, 512, 520, 65536, 65544,
                                     ((uint64_t)1 << 32) + 8, ((uint64_t)1 << 61) + 1, (uint64_t)1 << 63,
                                     UINT64_MAX - 63, UINT64_MAX - 64, UINT64_MAX};
    struct dataset s = worked(plain, line);
    char what[64];

    array_more(&s.array, 3000, 0);
    for (size_t i = 0; i < sizeof sizes / sizeof *sizes; i++) {
        struct call c = dataset_call(&s);

        c.offset_size = sizes[i];
        snprintf(what, sizeof what, "offset size %" PRIu64, sizes[i]);
        check_size(&c, CELLUMAQ_REFUSED_OFFSET_SIZE, sizes[i], what);
        c = dataset_call(&s);
        c.length_size = sizes[i];
        snprintf(what, sizeof what, "length size %" PRIu64, sizes[i]);
        check_size(&c, CELLUMAQ_REFUSED_LENGTH_SIZE, sizes[i], what);
    }
    struct call c = dataset_call(&s);
    c.offset_size = c.length_size = 3;
    check_refusal(&c, CELLUMAQ_REFUSED_LENGTH_SIZE, 3, 0, "both sizes 3");
    array_free(&s.array);
}

static uint64_t no_header(void)
{
    return samples_fixed ? CELLUMAQ_REFUSED_FIXED_HEADER_SIGNATURE : CELLUMAQ_REFUSED_HEADER_SIGNATURE;
}

static void addresses(void)
{
    struct dataset s = worked(plain, line);
    struct call c = dataset_call(&s);
    uint64_t length = s.array.length, size = (uint64_t)header_size(8, 8);

    c.address = 1;
    check_refusal(&c, no_header(), 0, 0, "another address");
    c.address = length - size + 1;
    check_refusal(&c, CELLUMAQ_REFUSED_PAST_END, length + 1, length, "one byte too near the end");
    c.address = length;
    check_refusal(&c, CELLUMAQ_REFUSED_PAST_END, length + size, length, "at the end");
    c.address = UINT64_MAX - size;
    check_refusal(&c, CELLUMAQ_REFUSED_PAST_END, UINT64_MAX, length, "the last end");
    c.address = UINT64_MAX;
    check_refusal(&c, CELLUMAQ_REFUSED_PAST_END, UINT64_MAX, length, "the last address");
    array_put(s.array.bytes + size - 12, UINT64_MAX - 1, 8);
    array_seal(&s.array, 0, size);
    c.address = 0;
    check_refusal(&c, CELLUMAQ_REFUSED_PAST_END, UINT64_MAX, length, "the last defined address of a block");
    array_free(&s.array);
}

/* An extensible array is read at its undefined address too. */
static void undefined_address(void)
{
    struct dataset s = worked(plain, line);
    struct call c = dataset_call(&s);

    array_put(s.array.bytes + 60, UINT64_MAX, 8);
    array_seal(&s.array, 0, 72);
    check_refusal(&c, CELLUMAQ_REFUSED_PAST_END, UINT64_MAX, s.array.length, "an undefined index block");
    array_free(&s.array);
}

/* Shapes of another length than 8 * rank, in the order of the refusals. */
static void shape_lengths(void)
{
    static const size_t lengths[] = {0, 1, 7, 8, 15, 17, 23, 24, 32, 256};
    static const uint8_t zeros[256];
    struct dataset s = worked(plain, grids[3]);
    struct call c;

    for (size_t i = 0; i < sizeof lengths / sizeof *lengths; i++) {
        struct slice other = {zeros, lengths[i]};

        c = dataset_call(&s);
        c.maximum = other;
        check_refusal(&c, CELLUMAQ_REFUSED_MAXIMUM_RANK, 0, 0, "a maximum of another rank");
        c.present = other;
        check_refusal(&c, CELLUMAQ_REFUSED_PRESENT_RANK, 0, 0, "a present shape of another rank");
        c.chunk = other;
        check_refusal(&c, CELLUMAQ_REFUSED_RANK, 0, 0, "a chunk shape of another rank");
        c.chunk.bytes = zeros;
        c.chunk.length = 16;
        check_refusal(&c, CELLUMAQ_REFUSED_PRESENT_RANK, 0, 0,
                      "a chunk shape with 0 and a present shape of another rank");
    }
    c = dataset_call(&s);
    c.chunk.bytes = zeros;
    check_refusal(&c, CELLUMAQ_REFUSED_CHUNK_LENGTH, 0, 0, "a chunk shape with 0");
    s.array.bytes[0] ^= 1;
    c.chunk.length = 3;
    check_refusal(&c, no_header(), 0, 0, "the header comes first");
    array_free(&s.array);
}

/* No rank over 32 is taken, whatever 8 * rank would be in 64 bits, or the rank in fewer. */
static void ranks(void)
{
    const uint64_t eighth = (uint64_t)1 << 61;
    const uint64_t given[] = {33, 34, 256, 257, 65536, 65537, ((uint64_t)1 << 32) + 1, eighth, eighth + 1,
                              eighth + 32, 2 * eighth + 1, UINT64_MAX - 1, UINT64_MAX};
    static uint8_t ones[8 * 40];
    struct dataset s = worked(plain, line);
    char what[64];

    for (size_t d = 0; d < 40; d++)
        cellumaq_put_length(ones, d, 1);
    for (size_t i = 0; i < sizeof given / sizeof *given; i++) {
        for (size_t length = 0; length <= sizeof ones; length += 8) {
            struct call c = dataset_call(&s);

            c.rank = given[i];
            c.chunk = c.present = c.maximum = (struct slice){ones, length};
            snprintf(what, sizeof what, "rank %" PRIu64 ", shapes of %zu bytes", given[i], length);
            check_refusal(&c, CELLUMAQ_REFUSED_RANK, 0, 0, what);
        }
    }
    s.grid = (struct grid){.element_bytes = 6, .order = 0, .rank = 32};
    for (int d = 0; d < 32; d++) {
        s.grid.chunk[d] = 1;
        s.grid.present[d] = 2;
    }
    check_dataset(&s, "rank 32");
    s.grid.rank = 0;
    check_dataset(&s, "rank 0");
    array_free(&s.array);
}

/* A maximum is given unless its flag is 0; then it isn't looked at. */
static void maximum_flags(void)
{
    static const uint64_t flags[] = {1, 2, 255, 256, (uint64_t)1 << 32, (uint64_t)1 << 63, UINT64_MAX};
    static const size_t lengths[] = {0, 1, 8, 16, 17, 100};
    static const uint8_t zeros[100];
    struct dataset s = worked(filtered, grids[samples_fixed ? 5 : 6]);

    s.grid.present[0] = 20;
    for (size_t i = 0; i < sizeof flags / sizeof *flags; i++) {
        s.grid.has_maximum = flags[i];
        check_dataset(&s, "a flag that isn't 0");
    }
    s.grid.has_maximum = 0;
    for (size_t i = 0; i < sizeof lengths / sizeof *lengths; i++) {
        struct call c = dataset_call(&s);

        c.maximum = (struct slice){zeros, lengths[i]};
        check_same(&c, &s, "flag 0");
    }
    array_free(&s.array);
}

/* Order 0 of an extensible array is row-major, any other has the unlimited dimension first. */
static void orders(void)
{
    static const uint64_t given[] = {1, 2, 255, 256, (uint64_t)1 << 32, (uint64_t)1 << 63, UINT64_MAX};
    static const struct entry entries[] = {{5, 4096, 1, 2}};
    struct dataset s = {.array = {.of = filtered, .count = 6, .entries = entries, .entry_count = 1}, .grid = grids[6]};
    uint8_t list[32];

    array_build(&s.array);
    for (size_t i = 0; i < sizeof given / sizeof *given; i++) {
        s.grid.order = given[i];
        struct call c = dataset_call(&s);
        struct cellumaq_answer a = ask_list(&c, sizeof list, list, "the unlimited dimension first");

        CHECK(a.refusal == 0 && a.count == 1 && cellumaq_record_offset(list, 2, 0, 0) == 10 &&
                  cellumaq_record_offset(list, 2, 0, 1) == 10,
              "order %" PRIu64 ": slot 5 isn't corner (10, 10)", given[i]);
    }
    s.grid.order = 0;
    struct call c = dataset_call(&s);
    check_refusal(&c, CELLUMAQ_REFUSED_UNLIMITED, 0, 0, "row-major");
    array_free(&s.array);
}

/* Grids that can't number their chunks. */
static void numberings(void)
{
    const uint64_t large = (uint64_t)1 << 40;
    struct dataset s = worked(plain, (struct grid){.rank = 3, .chunk = {1, 1, 1}, .present = {large, large, 0}});
    struct call c = dataset_call(&s);

    check_refusal(&c, CELLUMAQ_REFUSED_TOO_MANY_CHUNKS, 0, 0, "a product that is too large before a 0");
    s.grid.present[1] = 0;
    s.grid.present[2] = large;
    c = dataset_call(&s);
    check_refusal(&c, CELLUMAQ_REFUSED_NUMBERS_NOTHING, 0, 0, "a dimension without chunks");
    array_free(&s.array);
    s.array.entry_count = 0;
    dataset_build(&s);
    check_dataset(&s, "a dimension without chunks, and no address");
    s.grid = (struct grid){.rank = 4, .chunk = {1, 1, 1, 1}, .present = {5, CELLUMAQ_UNLIMITED, large, large}};
    c = dataset_call(&s);
    check_refusal(&c, CELLUMAQ_REFUSED_TOO_MANY_CHUNKS, 0, 0, "too many before an unlimited one");
    s.grid.present[2] = 2;
    c = dataset_call(&s);
    check_refusal(&c, CELLUMAQ_REFUSED_UNLIMITED, 0, 0, "an unlimited one before too many");
    array_free(&s.array);
}

/* Chunk lengths and element sizes of 32 bits and more. */
static void long_chunks(void)
{
    static const uint64_t lengths[] = {((uint64_t)1 << 32) - 1, (uint64_t)1 << 32, ((uint64_t)1 << 32) + 1,
                                       (uint64_t)1 << 40, (uint64_t)1 << 62};
    struct dataset s = worked(filtered, line), t = worked(plain, line);
    struct call c;
    char what[64];

    for (size_t i = 0; i < sizeof lengths / sizeof *lengths; i++) {
        snprintf(what, sizeof what, "chunk length %" PRIu64, lengths[i]);
        s.grid.chunk[0] = t.grid.chunk[0] = lengths[i];
        s.grid.present[0] = t.grid.present[0] = UINT64_MAX - 1;
        s.grid.element_bytes = UINT64_MAX;
        check_dataset(&s, what);
        t.grid.element_bytes = 0;
        check_dataset(&t, what);
        t.grid.element_bytes = 1;
        c = dataset_call(&t);
        if (lengths[i] > UINT32_MAX)
            check_refusal(&c, CELLUMAQ_REFUSED_CHUNK_SIZE, lengths[i], 0, what);
        else
            check_dataset(&t, what);
        c.element_bytes = 2;
        check_refusal(&c, CELLUMAQ_REFUSED_CHUNK_SIZE, 2 * lengths[i], 0, what);
        c.element_bytes = (uint64_t)1 << 32;
        check_refusal(&c, CELLUMAQ_REFUSED_CHUNK_SIZE, i == 0 ? lengths[0] << 32 : UINT64_MAX, 0, what);
    }
    s.grid.chunk[0] = (uint64_t)1 << 63;
    c = dataset_call(&s);
    check_refusal(&c, CELLUMAQ_REFUSED_OFFSET_OVERFLOW, 0, 0, "an offset of 2^64");
    array_free(&s.array);
    array_free(&t.array);
}

/* A list of any length holds the whole records that fit. */
static void list_lengths(void)
{
    struct dataset s = worked(plain, line);
    struct call c = dataset_call(&s);
    uint8_t list[200];

    for (size_t length = 0; length <= sizeof list; length++) {
        struct cellumaq_answer a = ask_list(&c, length, list, "some length");

        if (length < 48)
            CHECK(a.refusal == CELLUMAQ_REFUSED_LIST_TOO_SMALL && a.first == 2 && a.second == 0,
                  "length %zu: refusal %" PRIu64, length, a.refusal);
        else
            CHECK(a.refusal == 0 && a.count == 2, "length %zu: refusal %" PRIu64, length, a.refusal);
    }
    array_free(&s.array);
}

/* Each slice at each alignment. */
static void alignments(void)
{
    struct dataset s = worked(filtered, grids[3]);
    struct call c = dataset_call(&s);
    uint8_t *file = malloc(s.array.length + 16), chunk[32], present[32], maximum[32], list[96];
    size_t count;
    uint8_t *expected = dataset_list(&s, &count);

    for (size_t i = 0; i < 16 * 5; i++) {
        size_t at[5] = {0};

        at[i / 16] = i % 16;
        memcpy(file + at[0], c.file.bytes, c.file.length);
        memcpy(chunk + at[1], c.chunk.bytes, 16);
        memcpy(present + at[2], c.present.bytes, 16);
        memcpy(maximum + at[3], c.maximum.bytes, 16);
        memset(list, 0, sizeof list);
        struct call moved = c;
        moved.file.bytes = file + at[0];
        moved.chunk.bytes = chunk + at[1];
        moved.present.bytes = present + at[2];
        moved.maximum.bytes = maximum + at[3];
        uint64_t n = call_list(&moved, list + at[4], 64, CELLUMAQ_COUNT);
        CHECK(n == count && memcmp(list + at[4], expected, 32 * count) == 0, "slice %zu at alignment %zu", i / 16,
              i % 16);
    }
    free(expected);
    free(file);
    array_free(&s.array);
}

/* NULL is a slice without bytes. */
static void null_slices(void)
{
    struct dataset s = worked(plain, grids[0]);
    struct call c = {.is_fixed = samples_fixed, .offset_size = 8, .length_size = 8, .element_bytes = 4};
    uint8_t list[32];

    CHECK(call_list(&c, NULL, 0, CELLUMAQ_REFUSAL) == CELLUMAQ_REFUSED_PAST_END, "no file");
    CHECK(call_list(&c, NULL, 0, CELLUMAQ_FIRST_FIGURE) == (uint64_t)header_size(8, 8), "where it should end");
    c.file = (struct slice){s.array.bytes, s.array.length};
    c.has_maximum = 1;
    CHECK(call_list(&c, list, sizeof list, CELLUMAQ_COUNT) == 2, "rank 0");
    CHECK(cellumaq_record_address(list, 0, 0) == 4096 && cellumaq_record_chunk_size(list, 0, 0) == 4,
          "its first record");
    CHECK(cellumaq_record_address(list, 0, 1) == 8192 && cellumaq_record_chunk_size(list, 0, 1) == 4,
          "its second record");
    CHECK(call_list(&c, NULL, 0, CELLUMAQ_REFUSAL) == CELLUMAQ_REFUSED_LIST_TOO_SMALL, "no list");
    c.rank = 1;
    CHECK(call_list(&c, list, sizeof list, CELLUMAQ_REFUSAL) == CELLUMAQ_REFUSED_RANK, "no shapes");
    array_free(&s.array);
}

/* A byte of the header, a value of it, and whether the header is served then. */
struct header_byte {
    size_t byte;
    uint8_t value;
    int served;
};

static void check_header_byte(const struct header_byte *b)
{
    struct dataset s = worked(plain, line);
    uint8_t list[64];
    char what[64];

    patch_header(&s.array, b->byte, b->value);
    struct call c = dataset_call(&s);
    snprintf(what, sizeof what, "header byte %zu is %u", b->byte, b->value);
    struct cellumaq_answer a = ask_list(&c, sizeof list, list, what);
    CHECK((a.refusal == CELLUMAQ_REFUSED_HEADER_NOT_SERVED) == !b->served, "%s: refusal %" PRIu64, what, a.refusal);
    array_free(&s.array);
}

/* Each byte of the header that makes it one that isn't served. */
static void served_headers(void)
{
    static const struct header_byte extensible[] = {
        {7, 62, 1},  {7, 63, 0}, {7, 255, 0}, {9, 0, 0},   {9, 3, 0},    {9, 128, 1}, {9, 129, 0}, {9, 255, 0},
        {9, 1, 1},   {10, 32, 1}, {10, 33, 0}, {10, 255, 0}, {11, 32, 1}, {11, 33, 0}, {11, 255, 0}};
    static const struct header_byte fixed[] = {{7, 0, 1},  {7, 1, 1},  {7, 31, 1},  {7, 32, 1}, {7, 33, 0},
                                               {7, 63, 0}, {7, 64, 0}, {7, 128, 0}, {7, 255, 0}};

    for (size_t i = 0; i < sizeof extensible / sizeof *extensible && !samples_fixed; i++)
        check_header_byte(&extensible[i]);
    for (size_t i = 0; i < sizeof fixed / sizeof *fixed && samples_fixed; i++)
        check_header_byte(&fixed[i]);
}

/* The list of so many elements of that size, one or none. */
static void check_element_size(uint8_t size, const struct entry *entry, uint64_t count, uint64_t refusal,
                               uint64_t first)
{
    struct array_parameters p = filtered;
    char what[64];

    p.element_size = size;
    struct dataset s = {.array = {.is_fixed = samples_fixed, .of = p, .count = count, .entries = entry,
                                  .entry_count = 1},
                        .grid = line};
    dataset_build(&s);
    struct call c = dataset_call(&s);
    snprintf(what, sizeof what, "element size %u, %" PRIu64 " elements", size, count);
    if (refusal != 0)
        check_refusal(&c, refusal, first, 0, what);
    else
        check_dataset(&s, what);
    array_free(&s.array);
}

/* Filtered elements of every size: too few bytes for an address and a mask, a size field of 0 to 8 bytes, one of 9, and
 * sizes over 32 bits. A Fixed Array has its elements' size tested also where it has none. */
static void element_sizes(void)
{
    static const struct entry small = {0, 4096, 0xfe, 6}, large = {0, 4096, 0x123456789a, 6};

    for (uint8_t size = 8; size <= 30; size++) {
        uint64_t refusal = size < 12   ? CELLUMAQ_REFUSED_ELEMENT_SIZE
                           : size > 20 ? CELLUMAQ_REFUSED_SIZE_FIELD
                                       : CELLUMAQ_ACCEPTED;

        check_element_size(size, &small, 1, refusal, 0);
        if (size >= 17 && size <= 20)
            check_element_size(size, &large, 1, CELLUMAQ_REFUSED_CHUNK_SIZE, large.size);
        check_element_size(size, &large, 0, samples_fixed && size < 12 ? refusal : CELLUMAQ_ACCEPTED, 0);
    }
}

int main(void)
{
    run_both("list: widths of offsets and lengths", widths);
    run_both("list: addresses", addresses);
    test_run("list: an undefined address", undefined_address);
    run_both("list: lengths of shapes", shape_lengths);
    run_both("list: ranks", ranks);
    run_both("list: flags of the maximum", maximum_flags);
    test_run("list: orders", orders);
    run_both("list: grids without numbers", numberings);
    run_both("list: long chunks", long_chunks);
    run_both("list: lengths of the list", list_lengths);
    run_both("list: alignments", alignments);
    run_both("list: NULL", null_slices);
    run_both("list: headers that are served", served_headers);
    run_both("list: sizes of elements", element_sizes);
    return test_summary();
}
