/* The departures of docs/DIFFERENCES.md that a call from C can show, each on its smallest input. An answer is `R number
 * figure figure`, or `A` and the records `address:size:mask:offset,..`. The unchanged Rust gives the same answer to the
 * same input, unless a comment says what it does. */
#define _DEFAULT_SOURCE
#include "calls.h"
#include "dataset.h"

/* Slot s has the address 7 + s; a filtered one the size 5 and the mask 3. */
static const struct entry entries[] = {{0, 7, 5, 3},  {1, 8, 5, 3},  {2, 9, 5, 3}, {3, 10, 5, 3},
                                       {4, 11, 5, 3}, {5, 12, 5, 3}, {6, 13, 5, 3}};

/* A line of chunks of one element of one byte. */
static const struct grid line = {.element_bytes = 1, .order = 1, .rank = 1, .chunk = {1}, .present = {9},
                                 .has_maximum = 1, .maximum = {CELLUMAQ_UNLIMITED}};

/* Offset size, length size, client, element size, max bits, inline count, least block elements, super block minimum,
 * page exponent. The first array has nothing but inline elements; the second none, super blocks 0 and 1 with one data
 * block of 1 and 2 elements that the index block names, and super block 2 with two of 2 elements. */
static const struct array_parameters inline_only = {2, 2, 0, 2, 0, 2, 1, 0, 0},
                                     blocks_only = {2, 2, 0, 2, 2, 0, 1, 2, 1};
enum { HEADER, INDEX, DIRECT_0, DIRECT_1, SUPER_2, BLOCK_0, BLOCK_1 };

static struct dataset made_of(int is_fixed, struct array_parameters of, uint64_t count)
{
    struct dataset s = {.array = {.is_fixed = is_fixed, .of = of, .count = count, .entries = entries,
                                  .entry_count = count < 7 ? count : 7},
                        .grid = line};

    dataset_build(&s);
    return s;
}

static struct dataset made(struct array_parameters of, uint64_t count)
{
    return made_of(0, of, count);
}

/* A Fixed Array of two entries, or of more. */
static const struct array_parameters two_entries = {2, 2, 0, 2, 0, 0, 0, 0, 1};
enum { FIXED_BLOCK = 1 };

static struct dataset made_fixed(struct array_parameters of, uint64_t count)
{
    return made_of(1, of, count);
}

/* Changes a byte of a structure, with a new checksum. */
static void set(struct dataset *s, size_t structure, size_t at, uint8_t byte)
{
    const struct structure *t = &s->array.structures[structure];

    s->array.bytes[t->start + at] = byte;
    array_seal(&s->array, t->start, t->length);
}

static void spoil(struct dataset *s, size_t structure)
{
    s->array.bytes[s->array.structures[structure].start + s->array.structures[structure].length - 1] ^= 1;
}

static void expect_call(const struct call *c, const char *wanted)
{
    uint8_t list[4096];
    char said[4096], *at = said;
    struct cellumaq_answer a = ask_list(c, sizeof list, list, wanted);

    if (a.refusal != 0)
        sprintf(said, "R %" PRIu64 " %" PRIu64 " %" PRIu64, a.refusal, a.first, a.second);
    else
        at += sprintf(said, "A ");
    for (size_t i = 0; i < a.count; i++) {
        at += sprintf(at, "%s%" PRIu64 ":%u:%u:", i == 0 ? "" : ";", cellumaq_record_address(list, c->rank, i),
                      cellumaq_record_chunk_size(list, c->rank, i), cellumaq_record_mask(list, c->rank, i));
        for (size_t d = 0; d < c->rank; d++)
            at += sprintf(at, "%s%" PRIu64, d == 0 ? "" : ",", cellumaq_record_offset(list, c->rank, i, d));
    }
    CHECK(strcmp(said, wanted) == 0, "%s instead of %s", said, wanted);
}

static void expect(struct dataset s, const char *wanted)
{
    struct call c = dataset_call(&s);

    expect_call(&c, wanted);
    array_free(&s.array);
}

static void expect_on(struct grid g, const char *wanted)
{
    struct dataset s = made(inline_only, 2);

    s.grid = g;
    expect(s, wanted);
}

/* From the Rust. */

static void refusals_are_numbers(void)
{
    struct dataset s = made(inline_only, 2);

    s.array.length = 0;
    expect(s, "R 20 30 0");
}

/* The Rust without its feature `checksum`: A 7:1:0:0;8:1:0:1 */
static void checksums_are_always_tested(void)
{
    struct dataset s = made(inline_only, 2);

    spoil(&s, HEADER);
    expect(s, "R 26 2620392546 2637169762");
}

/* The Rust can't be called with 258; cast to its u8 that is 2: A 7:1:0:0;8:1:0:1 */
static void sizes_are_not_cut(void)
{
    struct dataset s = made(inline_only, 2);
    struct call c;

    array_more(&s.array, 238, 0);
    c = dataset_call(&s);
    c.offset_size = 258;
    expect_call(&c, "R 1 258 0");
    array_free(&s.array);
}

/* The Rust, each time: A 7:1:0:0;8:1:0:1 */
static void served_headers(void)
{
    static const struct array_parameters beyond[] = {{2, 2, 0, 2, 0, 2, 0, 0, 0}, {2, 2, 0, 2, 0, 2, 3, 0, 0},
                                                     {2, 2, 0, 2, 63, 2, 1, 0, 0}, {2, 2, 0, 2, 0, 2, 1, 33, 0},
                                                     {2, 2, 0, 2, 0, 2, 1, 0, 33}};

    for (size_t i = 0; i < sizeof beyond / sizeof *beyond; i++)
        expect(made(beyond[i], 2), "R 27 0 0");
}

/* The Rust: a record with 33 offsets, all 0. */
static void rank_over_32(void)
{
    struct dataset s = made(inline_only, 2);
    struct call c = dataset_call(&s);
    uint8_t shape[8 * 33];

    for (size_t d = 0; d < 33; d++)
        cellumaq_put_length(shape, d, 1);
    c.rank = 33;
    c.has_maximum = 0;
    c.chunk = c.present = (struct slice){shape, sizeof shape};
    expect_call(&c, "R 3 0 0");
    array_free(&s.array);
}

/* A corner of the present shape whose slot isn't numbered is absent. */
static void expect_absent(struct grid g, uint64_t first, uint64_t second)
{
    struct dataset s = made(inline_only, 2);
    uint8_t corner[16];

    s.grid = g;
    struct call c = dataset_call(&s);
    cellumaq_put_length(corner, 0, first);
    cellumaq_put_length(corner, 1, second);
    struct cellumaq_answer a = ask_lookup(&c, (struct slice){corner, 16}, "a corner without a slot");
    CHECK(a.refusal == 0 && a.count == 0, "refusal %" PRIu64 ", %" PRIu64 " records", a.refusal, a.count);
    array_free(&s.array);
}

/* The Rust's slot_of: 1, which is the slot of (1, 0); too large; no chunks. */
static void corners_without_a_slot(void)
{
    static const uint64_t wide = (uint64_t)1 << 62;

    expect_absent((struct grid){1, 1, 2, {1, 1}, {2, 2}, 1, {CELLUMAQ_UNLIMITED, 1}}, 0, 1);
    expect_absent((struct grid){1, 1, 2, {1, 1}, {5, 1}, 1, {CELLUMAQ_UNLIMITED, wide}}, 4, 0);
    expect_absent((struct grid){1, 1, 2, {1, 1}, {1, 1}, 1, {CELLUMAQ_UNLIMITED, 0}}, 0, 0);
}

/* The Rust's list has no room to run out of. */
static void list_too_small(void)
{
    struct dataset s = made(inline_only, 2);
    struct call c = dataset_call(&s);

    CHECK(call_list(&c, NULL, 0, CELLUMAQ_REFUSAL) == 9 && call_list(&c, NULL, 0, CELLUMAQ_FIRST_FIGURE) == 2,
          "not refused with 9 and 2");
    array_free(&s.array);
}

/* The Rust's product wraps to 0, A 7:0:0:0,0,0, or panics where overflow is checked. */
static void chunk_bytes_are_exact(void)
{
    static const uint64_t half = (uint64_t)1 << 31;

    expect_on((struct grid){.element_bytes = 1, .rank = 3, .chunk = {half, half, 4}, .present = {1, 1, 1}},
              "R 30 18446744073709551615 0");
}

/* The Rust, each time: A 7:1:0:0;8:1:0:1. From 64 on it panics, or shifts by less where overflow isn't checked. */
static void fixed_page_exponents(void)
{
    static const uint8_t beyond[] = {33, 63, 64};

    for (size_t i = 0; i < sizeof beyond / sizeof *beyond; i++) {
        struct dataset s = made_fixed(two_entries, 2);

        set(&s, HEADER, 7, beyond[i]);
        expect(s, "R 27 0 0");
    }
}

/* The Rust: R 20 65543 32; at offsets of 8 bytes R 20 18446744073709551615 62. */
static void fixed_without_a_data_block(void)
{
    static const uint8_t sizes[] = {2, 8};

    for (int i = 0; i < 2; i++) {
        struct array_parameters p = two_entries;

        p.offset_size = p.length_size = sizes[i];
        struct dataset s = made_fixed(p, 2);
        for (size_t at = 8u + sizes[i]; at < 8u + 2 * sizes[i]; at++)
            set(&s, HEADER, at, 0xff);
        expect(s, "A ");
    }
}

/* From the format specification. */

static void fields_that_are_not_looked_at(void)
{
    struct dataset s = made(inline_only, 2);

    set(&s, INDEX, 4, 1);
    expect(s, "A 7:1:0:0;8:1:0:1");
    s = made(blocks_only, 7);
    for (size_t i = INDEX; i <= BLOCK_1; i++)
        for (size_t at = 4; at < (i == INDEX ? array_head(&blocks_only) : array_block_head(&blocks_only)); at++)
            set(&s, i, at, 0xee);
    expect(s, "A 7:1:0:0;8:1:0:1;9:1:0:2;10:1:0:3;11:1:0:4;12:1:0:5;13:1:0:6");
    expect(made(blocks_only, 65535), "A 7:1:0:0;8:1:0:1;9:1:0:2;10:1:0:3;11:1:0:4;12:1:0:5;13:1:0:6");
}

static void one_block_named_twice(void)
{
    struct dataset s = made(blocks_only, 7);

    set(&s, SUPER_2, array_block_head(&blocks_only) + 2,
        s.array.bytes[s.array.structures[SUPER_2].start + array_block_head(&blocks_only)]);
    expect(s, "A 7:1:0:0;8:1:0:1;9:1:0:2;10:1:0:3;11:1:0:4;10:1:0:5;11:1:0:6");
}

/* By the format a minimum of 1 has no data block named in the index block: its one pointer leads to a super block. */
static void super_block_minimum(void)
{
    struct dataset s = made((struct array_parameters){2, 2, 0, 2, 0, 0, 1, 0, 0}, 1);

    set(&s, HEADER, 10, 1);
    expect(s, "R 24 0 0");
}

/* A data block of 2 elements, in two pages of one, that the index block names. */
static void paged_block_of_the_index_block(void)
{
    struct dataset s = made((struct array_parameters){2, 2, 0, 2, 1, 0, 1, 2, 0}, 1);
    struct array *a = &s.array;
    size_t head = array_block_head(&a->of), block = array_structure(a, "EADB", head + 4, 1);

    array_put(a->bytes + block + array_head(&a->of), 1, 1);
    array_seal(a, block, head + 4);
    for (uint64_t p = 0; p < 2; p++) {
        size_t page = array_structure(a, "", 6, 1 + p);

        array_put(a->bytes + page, 8 + p, 2);
        array_seal(a, page, 6);
    }
    set(&s, INDEX, array_head(&a->of) + 2, (uint8_t)block);
    set(&s, INDEX, array_head(&a->of) + 3, 0);
    set(&s, HEADER, 12 + 4 * 2, 3);
    expect(s, "R 26 861863944 1779602721");
}

/* An array that was never written to. Where the file goes on to an index block at the all-ones address, it is read. */
static void undefined_index_block(void)
{
    struct dataset s = made(inline_only, 0);
    size_t address = s.array.structures[HEADER].length - 6, index = s.array.structures[INDEX].start,
           length = s.array.structures[INDEX].length;

    set(&s, HEADER, address, 0xff);
    set(&s, HEADER, address + 1, 0xff);
    s.array.length = 30;
    expect(s, "R 20 65553 30");

    s = made(inline_only, 2);
    set(&s, HEADER, address, 0xff);
    set(&s, HEADER, address + 1, 0xff);
    array_more(&s.array, 65535 - s.array.length + length, 0);
    memcpy(s.array.bytes + 65535, s.array.bytes + index, length);
    expect(s, "A 7:1:0:0;8:1:0:1");
}

/* Four slots are published: the second data block of super block 2, and the second page of its first one, lie behind
 * them. */
static void damage_past_the_count(void)
{
    struct array_parameters paged = blocks_only;
    struct dataset s = made(blocks_only, 7);

    spoil(&s, BLOCK_1);
    set(&s, HEADER, 12 + 4 * 2, 4);
    expect(s, "R 26 244266822 261044038");

    paged.page_exponent = 0;
    s = made(paged, 7);
    spoil(&s, BLOCK_0 + 2);
    set(&s, HEADER, 12 + 4 * 2, 4);
    expect(s, "R 26 481971284 498748500");
}

static void reserved_clients(void)
{
    expect(made((struct array_parameters){2, 2, 2, 7, 0, 1, 1, 0, 0}, 1), "A 7:5:3:0");
}

static void element_sizes(void)
{
    expect(made((struct array_parameters){2, 2, 0, 0, 0, 1, 1, 0, 0}, 1), "A 7:1:0:0");
    expect(made((struct array_parameters){2, 2, 1, 6, 0, 1, 1, 0, 0}, 1), "A 7:0:3:0");
}

static void sizes_from_4_gib(void)
{
    static const struct entry large = {0, 7, (uint64_t)1 << 32, 3};
    struct dataset s = {.array = {.of = {2, 2, 1, 11, 0, 1, 1, 0, 0}, .count = 1, .entries = &large, .entry_count = 1},
                        .grid = line};

    array_build(&s.array);
    expect(s, "R 30 4294967296 0");
    expect_on((struct grid){.element_bytes = 1, .rank = 2, .chunk = {65536, 65536}, .present = {1, 1}},
              "R 30 4294967296 0");
}

/* Max bits below log2 m; a minimum of 3; more inline elements than a page has; more elements than that in the first
 * data block of a super block. */
static void parameters_that_do_not_fit(void)
{
    expect(made((struct array_parameters){2, 2, 0, 2, 0, 0, 2, 0, 1}, 2), "A 7:1:0:0;8:1:0:1");
    expect(made((struct array_parameters){2, 2, 0, 2, 2, 0, 1, 3, 1}, 4), "A 7:1:0:0;8:1:0:1;9:1:0:2;10:1:0:3");
    expect(made(inline_only, 2), "A 7:1:0:0;8:1:0:1");
    expect(made((struct array_parameters){2, 2, 0, 2, 2, 0, 1, 2, 0}, 4), "A 7:1:0:0;8:1:0:1;9:1:0:2;10:1:0:3");
}

static void shapes_that_no_dataset_has(void)
{
    expect_on((struct grid){.element_bytes = 1, .rank = 0}, "A 7:1:0:;8:1:0:");
    expect_on(
        (struct grid){.element_bytes = 1, .rank = 1, .chunk = {1}, .present = {2}, .has_maximum = 1, .maximum = {1}},
        "A 7:1:0:0;8:1:0:1");
}

static void chunks_outside_the_present_shape(void)
{
    expect_on(
        (struct grid){.element_bytes = 1, .rank = 1, .chunk = {1}, .present = {1}, .has_maximum = 1, .maximum = {2}},
        "A 7:1:0:0");
}

static void other_widths(void)
{
    struct dataset s = made(inline_only, 2);
    struct call c = dataset_call(&s);

    c.offset_size = 16;
    expect_call(&c, "R 1 16 0");
    array_free(&s.array);
}

/* Version, client and header address of a Fixed Array's data block, the size of unfiltered elements; clients from 2
 * on; more entries than the grid has chunks. */
static void fixed_fields_that_are_not_looked_at(void)
{
    struct dataset s = made_fixed(two_entries, 5);

    for (size_t at = 4; at < array_head(&two_entries); at++)
        set(&s, FIXED_BLOCK, at, 0xee);
    set(&s, HEADER, 6, 0);
    expect(s, "A 7:1:0:0;8:1:0:1;9:1:0:2;10:1:0:3;11:1:0:4");
    expect(made_fixed((struct array_parameters){2, 2, 2, 7, 0, 0, 0, 0, 1}, 1), "A 7:5:3:0");
    s = made_fixed(two_entries, 5);
    s.grid = (struct grid){.element_bytes = 1, .rank = 1, .chunk = {1}, .present = {3}};
    expect(s, "A 7:1:0:0;8:1:0:1;9:1:0:2");
}

/* One byte before the file: an address counts from the slice's first byte. */
static void base_address(void)
{
    struct dataset s = made(inline_only, 2);
    struct call c;

    array_more(&s.array, 1, 0);
    memmove(s.array.bytes + 1, s.array.bytes, s.array.length - 1);
    c = dataset_call(&s);
    c.address = 1;
    expect_call(&c, "R 23 0 0");
    c.file = (struct slice){s.array.bytes + 1, s.array.length - 1};
    c.address = 0;
    expect_call(&c, "A 7:1:0:0;8:1:0:1");
    array_free(&s.array);
}

int main(void)
{
    test_run("differences: refusals are numbers", refusals_are_numbers);
    test_run("differences: checksums are always tested", checksums_are_always_tested);
    test_run("differences: sizes are not cut to 8 bits", sizes_are_not_cut);
    test_run("differences: served headers", served_headers);
    test_run("differences: rank over 32", rank_over_32);
    test_run("differences: corners without a slot", corners_without_a_slot);
    test_run("differences: list too small", list_too_small);
    test_run("differences: a chunk's bytes are exact", chunk_bytes_are_exact);
    test_run("differences: page exponents of Fixed Arrays", fixed_page_exponents);
    test_run("differences: a Fixed Array without a data block", fixed_without_a_data_block);
    test_run("differences: fields that aren't looked at", fields_that_are_not_looked_at);
    test_run("differences: one block named twice", one_block_named_twice);
    test_run("differences: super block minimum", super_block_minimum);
    test_run("differences: a paged block that the index block names", paged_block_of_the_index_block);
    test_run("differences: undefined index block", undefined_index_block);
    test_run("differences: damage past the count", damage_past_the_count);
    test_run("differences: reserved clients", reserved_clients);
    test_run("differences: element sizes", element_sizes);
    test_run("differences: sizes from 4 GiB on", sizes_from_4_gib);
    test_run("differences: parameters that don't fit each other", parameters_that_do_not_fit);
    test_run("differences: shapes that no dataset has", shapes_that_no_dataset_has);
    test_run("differences: chunks outside the present shape", chunks_outside_the_present_shape);
    test_run("differences: other widths", other_widths);
    test_run("differences: fields of Fixed Arrays that aren't looked at", fixed_fields_that_are_not_looked_at);
    test_run("differences: base address", base_address);
    return test_summary();
}
