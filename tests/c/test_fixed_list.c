/* cellumaq_fixed_list: lists of questions and answers, real files, and files that are built here, whole, damaged and
 * cut, with pages of any size and any number of entries. Every answer is compared with the model's too (calls.h).
 *
 * test_fixed_list QUESTIONS ANSWERS replays those two lists alone. */
#define _DEFAULT_SOURCE
#include "list_checks.h"
#include "replay.h"

/* Questions and answers. */

/* A header has no call of its own, but it is read first in a list, and where it is accepted its fields say whether it
 * is served and where the data block begins. */
static void check_header(const struct question *q, const char *answer, const char *what)
{
    struct cellumaq_answer a = ask_list(&q->call, 0, NULL, what);
    uint64_t client, element_size, page_exponent, entries, block, offset_size = q->call.offset_size;

    if (is_refused(a, answer, what))
        return;
    CHECK(sscanf(answer, "ok %" SCNu64 " %" SCNu64 " %" SCNu64 " %" SCNu64 " %" SCNu64, &client, &element_size,
                 &page_exponent, &entries, &block) == 5,
          "%s: an answer of another form", what);
    if (page_exponent > 32)
        check_refused(a, CELLUMAQ_REFUSED_HEADER_NOT_SERVED, 0, 0, what);
    else if (block == UINT64_MAX >> (64 - 8 * offset_size))
        check_refused(a, CELLUMAQ_ACCEPTED, 0, 0, what);
    else if (is_past_end(a, &q->call, block, 6 + offset_size, what))
        return;
    else if (memcmp(q->call.file.bytes + block, "FADB", 4) != 0)
        check_refused(a, CELLUMAQ_REFUSED_FIXED_DATA_BLOCK_SIGNATURE, 0, 0, what);
    else if (client != 0 && element_size < offset_size + 4)
        check_refused(a, CELLUMAQ_REFUSED_ELEMENT_SIZE, 0, 0, what);
    else
        CHECK(a.refusal == 0 || a.refusal == CELLUMAQ_REFUSED_LIST_TOO_SMALL || a.refusal == 20 || a.refusal == 26 ||
                  (a.refusal >= 29 && a.refusal <= 33),
              "%s: refusal %" PRIu64 " of an accepted header", what, a.refusal);
}

static void replay_headers(void)
{
    replay("fheader", check_header);
}

static void replay_lists(void)
{
    replay("flist", check_list_line);
}

static void replay_all(void)
{
    unsigned long replayed = vector_replay(questions, answers, "fheader", check_header);

    replayed += vector_replay(questions, answers, "flist", check_list_line);
    CHECK(replayed != 0, "%s has no question", questions);
}

/* Arrays that are built here. */

static struct dataset built(struct array_parameters of, struct grid grid, uint64_t count, const struct entry *entries,
                            size_t entry_count)
{
    struct dataset s = {.array = {.is_fixed = 1, .of = of, .count = count, .entries = entries,
                                  .entry_count = entry_count},
                        .grid = grid};

    dataset_build(&s);
    return s;
}

/* A line of so many chunks of one element of one byte. */
static struct grid line_of(uint64_t chunks)
{
    return (struct grid){.element_bytes = 1, .rank = 1, .chunk = {1}, .present = {chunks}};
}

/* One array by its bytes and its list by its numbers: five entries in pages of two, the second page clear. */
static void worked_example(void)
{
    static const struct entry entries[] = {{1, 0x1122, 0, 0}, {4, 0x3344, 0, 0}};
    static const uint8_t head[] = {'F', 'A', 'D', 'B', 0, 0, 0, 0, 0, 0, 0xa0};
    static const uint8_t first[] = {0xff, 0xff, 0xff, 0xff, 0x22, 0x11, 0, 0}, last[] = {0x44, 0x33, 0, 0};
    struct dataset s = built((struct array_parameters){4, 2, 0, 4, 0, 0, 0, 0, 1}, line_of(5), 5, entries, 2);
    static const uint8_t header[] = {'F', 'A', 'H', 'D', 0, 0, 4, 1, 5, 0, 18, 0, 0, 0};
    const struct structure *t = s.array.structures;
    uint8_t *bytes = s.array.bytes, list[48];
    struct call c = dataset_call(&s);
    struct cellumaq_answer a = ask_list(&c, sizeof list, list, "the worked example");

    CHECK(s.array.length == 65 && memcmp(bytes, header, 14) == 0 && memcmp(bytes + 18, head, 11) == 0 &&
              memcmp(bytes + 33, first, 8) == 0 && memcmp(bytes + 57, last, 4) == 0,
          "other bytes");
    CHECK(s.array.structure_count == 4 && t[2].start == 33 && t[2].length == 12 && t[3].start == 57 && t[3].length == 8,
          "other pages");
    CHECK(a.refusal == 0 && a.count == 2, "%" PRIu64 " records", a.count);
    CHECK(cellumaq_record_address(list, 1, 0) == 0x1122 && cellumaq_record_offset(list, 1, 0, 0) == 1 &&
              cellumaq_record_address(list, 1, 1) == 0x3344 && cellumaq_record_offset(list, 1, 1, 0) == 4,
          "other records");
    array_free(&s.array);
}

/* Many entries, few of them defined, with pages of every size: clear pages are stepped over, and the last one is as
 * long as its entries. */
static void page_sizes(void)
{
    static const struct entry entries[] = {{0, 4096, 7, 0},     {1, 1, 7, 1},       {1023, 2, 7, 2},
                                           {1024, 3, 7, 3},     {4095, 4, 7, 4},    {4096, 0, 7, UINT32_MAX},
                                           {12345, 4104, 7, 5}, {16383, 5, 7, 6},   {16384, 6, 7, 7}};
    char what[128];

    for (uint8_t exponent = 0; exponent <= 32; exponent += exponent < 16 ? 1 : 8)
        for (int l = 0; l < 2; l++)
            for (size_t n = 0; n <= sizeof entries / sizeof *entries; n++) {
                struct array_parameters p = layouts[l];
                uint64_t count = n == 0 ? 20000 : entries[n - 1].slot + 1;

                p.page_exponent = exponent;
                struct dataset s = built(p, grids[2], count, entries, sizeof entries / sizeof *entries);
                snprintf(what, sizeof what, "%" PRIu64 " entries in pages of 2^%u, layout %d", count, exponent, l);
                check_dataset(&s, what);
                array_free(&s.array);
            }
}

/* Fewer and more entries than the grid has chunks: behind the last chunk of the grid an entry has an offset behind the
 * present shape, and is dropped. */
static void other_numbers_of_entries(void)
{
    static struct entry entries[40];
    const struct grid grid = {.element_bytes = 2, .rank = 2, .chunk = {2, 3}, .present = {7, 8}, .has_maximum = 1,
                              .maximum = {8, 9}};
    char what[64];

    for (uint64_t slot = 0; slot < 40; slot++)
        entries[slot] = (struct entry){slot, 100 + slot, 0, 0};
    for (uint64_t count = 0; count <= 40; count++)
        for (uint8_t exponent = 0; exponent <= 6; exponent++) {
            struct array_parameters p = plain;

            p.page_exponent = exponent;
            struct dataset s = built(p, grid, count, entries, 40);
            struct call c = dataset_call(&s);
            uint64_t chunks = count < 12 ? count : 12; /* the grid has 4 by 3 */

            snprintf(what, sizeof what, "%" PRIu64 " entries in pages of 2^%u", count, exponent);
            check_dataset(&s, what);
            CHECK(call_list(&c, NULL, 0, CELLUMAQ_FIRST_FIGURE) == chunks, "%s: not %" PRIu64 " records", what, chunks);
            array_free(&s.array);
        }
}

/* Puts another number of entries into a header. */
static void put_entries(struct array *a, uint64_t entries)
{
    array_put(a->bytes + a->header + 8, entries, a->of.length_size);
    array_seal(a, a->header, a->structures[0].length);
}

/* As many entries as 64 bits can tell: the data block, or its head, would end behind the file, and where is exact. */
static void most_entries(void)
{
    static const uint64_t numbers[] = {UINT64_MAX,        UINT64_MAX - 1,          UINT64_MAX - 7,
                                       UINT64_MAX - 8,    (uint64_t)1 << 63,       ((uint64_t)1 << 63) - 1,
                                       (uint64_t)1 << 40, ((uint64_t)1 << 40) + 1, ((uint64_t)1 << 40) - 1};
    char what[128];

    for (int l = 0; l < 2; l++)
        for (unsigned exponent = 0; exponent <= 32; exponent++)
            for (size_t i = 0; i < sizeof numbers / sizeof *numbers; i++) {
                struct array_parameters p = layouts[l];

                p.page_exponent = (uint8_t)exponent;
                struct dataset s = built(p, line_of(3), 1, worked_entries, 1);
                struct call c = dataset_call(&s);
                uint64_t page = (uint64_t)1 << exponent, pages = numbers[i] / page + (numbers[i] % page != 0);
                uint64_t end = s.array.structures[1].start + array_head(&p) + pages / 8 + (pages % 8 != 0) + 4;

                put_entries(&s.array, numbers[i]);
                snprintf(what, sizeof what, "%" PRIu64 " entries in pages of 2^%u, layout %d", numbers[i], exponent, l);
                check_refusal(&c, CELLUMAQ_REFUSED_PAST_END, end, s.array.length, what);
                array_free(&s.array);
            }
}

/* Sets a clear page, or clears it; its bytes stay as they are. */
static void toggle_page(struct array *a, uint64_t page)
{
    const struct structure *t = &a->structures[1];

    a->bytes[t->start + array_head(&a->of) + page / 8] ^= (uint8_t)(0x80 >> page % 8);
    array_seal(a, t->start, t->length);
}

/* The first page that would begin over 2^64 - 1 bytes behind the first one is refused with 31, the one before it with
 * 20: it would end past 2^64 - 1. */
static void far_pages(void)
{
    const struct array_parameters largest = {8, 8, 1, 255, 0, 0, 0, 0, 32};
    const uint64_t stride = ((uint64_t)255 << 32) + 4, far = UINT64_MAX / stride + 1;
    struct dataset s = built(largest, line_of(UINT64_MAX - 1), (far + 1) << 32, NULL, 0);
    struct call c = dataset_call(&s);
    uint64_t length = s.array.length; /* where the first page would begin */
    uint8_t corner[8];

    CHECK(call_list(&c, NULL, 0, CELLUMAQ_COUNT) == 0 && call_list(&c, NULL, 0, CELLUMAQ_REFUSAL) == 0,
          "clear pages aren't stepped over");
    toggle_page(&s.array, far);
    check_refusal(&c, CELLUMAQ_REFUSED_PAGE_OVERFLOW, far, stride, "the first page past 2^64 - 1");
    cellumaq_put_length(corner, 0, far << 32);
    check_refused(ask_lookup(&c, (struct slice){corner, 8}, "a chunk of it"), CELLUMAQ_REFUSED_PAGE_OVERFLOW, far,
                  stride, "a chunk of it");
    toggle_page(&s.array, far - 1);
    check_refusal(&c, CELLUMAQ_REFUSED_PAST_END, UINT64_MAX, length, "the page before it");
    toggle_page(&s.array, 1);
    check_refusal(&c, CELLUMAQ_REFUSED_PAST_END, length + 2 * stride, length, "the second page");
    array_free(&s.array);
}

/* Puts another address of the data block into a header. */
static void put_block(struct array *a, uint64_t address)
{
    const struct structure *t = a->structures;

    array_put(a->bytes + t->start + t->length - 4 - a->of.offset_size, address, a->of.offset_size);
    array_seal(a, t->start, t->length);
}

/* An array that was never written to has no data block: whatever it says of it, the list is empty, and no chunk there;
 * but shapes, corners and the page exponent are tested before. */
static void check_undefined(uint8_t offset_size, uint64_t count)
{
    const struct array_parameters of = {offset_size, 8, 1, 0, 0, 0, 0, 0, 10};
    struct dataset s = {.array = {.is_fixed = 1, .of = of, .count = 3, .header = 9}, .grid = line_of(4)};
    const uint8_t corner[8] = {2};
    char what[64];

    snprintf(what, sizeof what, "an undefined address of %u bytes, %" PRIu64 " entries", offset_size, count);
    dataset_build(&s);
    put_entries(&s.array, count);
    put_block(&s.array, UINT64_MAX);
    struct call c = dataset_call(&s);
    check_refusal(&c, CELLUMAQ_ACCEPTED, 0, 0, what);
    check_refused(ask_lookup(&c, (struct slice){corner, 8}, what), CELLUMAQ_ACCEPTED, 0, 0, what);
    c.file.length = s.array.structures[0].start + s.array.structures[0].length;
    check_refusal(&c, CELLUMAQ_ACCEPTED, 0, 0, what);
    check_refused(ask_lookup(&c, (struct slice){corner, 7}, what), CELLUMAQ_REFUSED_CORNER, 0, 0, what);
    c.chunk.length = 0;
    check_refusal(&c, CELLUMAQ_REFUSED_RANK, 0, 0, what);
    c = dataset_call(&s);
    s.array.bytes[s.array.header + 7] = 33;
    array_seal(&s.array, s.array.header, s.array.structures[0].length);
    check_refusal(&c, CELLUMAQ_REFUSED_HEADER_NOT_SERVED, 0, 0, what);
    array_free(&s.array);
}

static void undefined_addresses(void)
{
    static const uint8_t sizes[] = {2, 4, 8};
    static const uint64_t counts[] = {0, 3, UINT64_MAX};

    for (int i = 0; i < 3; i++)
        for (int k = 0; k < 3; k++)
            check_undefined(sizes[i], counts[k]);
}

/* All bits of 2 bytes aren't those of 4; and in 2 bytes they are undefined also where a data block stands there. */
static void address_65535(void)
{
    static const uint8_t sizes[] = {2, 4};

    for (int i = 0; i < 2; i++) {
        struct dataset s = built((struct array_parameters){sizes[i], 2, 0, 0, 0, 0, 0, 0, 2}, line_of(3), 3,
                                 worked_entries, 2);
        struct structure *t = &s.array.structures[1];

        array_more(&s.array, 65535 + t->length - s.array.length, 0);
        memcpy(s.array.bytes + 65535, s.array.bytes + t->start, t->length);
        put_block(&s.array, 65535);
        memset(s.array.bytes + t->start, 0, t->length);
        struct call c = dataset_call(&s);
        if (sizes[i] == 2)
            check_refusal(&c, CELLUMAQ_ACCEPTED, 0, 0, "65,535 in 2 bytes");
        else
            check_dataset(&s, "65,535 in 4 bytes");
        CHECK(call_list(&c, NULL, 0, CELLUMAQ_FIRST_FIGURE) == (sizes[i] == 2 ? 0 : 2), "other records");
        array_free(&s.array);
    }
}

/* Too small elements are told behind the data block's first bytes and signature, and before all else of it. */
static void check_small_elements(uint8_t exponent, uint64_t count)
{
    struct array_parameters p = filtered;

    p.element_size = 11;
    p.page_exponent = exponent;
    struct dataset s = built(p, line_of(9), count, worked_entries, 2);
    struct call c = dataset_call(&s);
    const struct structure *t = &s.array.structures[1];
    uint64_t head = t->start + array_head(&p);

    check_refusal(&c, CELLUMAQ_REFUSED_ELEMENT_SIZE, 0, 0, "small elements");
    c.file.length = head;
    check_refusal(&c, CELLUMAQ_REFUSED_ELEMENT_SIZE, 0, 0, "small elements, and no more of the data block");
    c.file.length = head - 1;
    check_refusal(&c, CELLUMAQ_REFUSED_PAST_END, head, head - 1, "small elements, and less of it");
    c = dataset_call(&s);
    s.array.bytes[t->start + t->length - 1] ^= 1;
    check_refusal(&c, CELLUMAQ_REFUSED_ELEMENT_SIZE, 0, 0, "small elements, and another checksum");
    s.array.bytes[t->start] ^= 1;
    check_refusal(&c, CELLUMAQ_REFUSED_FIXED_DATA_BLOCK_SIGNATURE, 0, 0, "small elements, and another signature");
    array_free(&s.array);
}

static void small_elements(void)
{
    for (uint8_t exponent = 0; exponent <= 3; exponent += 3)
        for (uint64_t count = 0; count <= 5; count++)
            check_small_elements(exponent, count);
}

/* Neither the header's address that a data block has is looked at, nor its version and client; nor what the size of
 * unfiltered elements is said to be. */
static void fields_that_are_not_looked_at(void)
{
    for (unsigned size = 0; size <= 255; size += 15) {
        struct array_parameters p = {4, 4, 0, (uint8_t)size, 0, 0, 0, 0, 1};
        struct dataset s = built(p, line_of(3), 3, worked_entries, 2);
        const struct structure *t = &s.array.structures[1];

        memset(s.array.bytes + t->start + 4, 0xee, array_head(&p) - 4);
        array_seal(&s.array, t->start, t->length);
        check_dataset(&s, "other fields");
        array_free(&s.array);
    }
}

/* With no chunk in a dimension behind the leading one a defined address has no corner; an undefined one needs none. */
static void no_numbers(void)
{
    const struct grid grid = {.element_bytes = 1, .rank = 2, .chunk = {1, 1}, .present = {4, 0}};
    struct dataset s = built(plain, grid, 3, worked_entries, 0);

    check_dataset(&s, "no address");
    array_free(&s.array);
    s = built(plain, grid, 3, worked_entries, 2);
    struct call c = dataset_call(&s);
    check_refusal(&c, CELLUMAQ_REFUSED_NUMBERS_NOTHING, 0, 0, "an address");
    array_free(&s.array);
}

/* Four million clear pages. */
static void clear_pages(void)
{
    struct dataset s = built((struct array_parameters){2, 8, 0, 2, 0, 0, 0, 0, 0}, line_of(UINT64_MAX - 1), 1 << 22,
                             NULL, 0);
    struct call c = dataset_call(&s);

    check_refusal(&c, CELLUMAQ_ACCEPTED, 0, 0, "clear pages");
    array_free(&s.array);
}

int main(int argc, char **argv)
{
    samples_fixed = 1;
    if (argc == 3) {
        questions = argv[1];
        answers = argv[2];
        test_run("fixed list: the given questions", replay_all);
        return test_summary();
    }
    questions = "tests/data/fixed/questions.txt";
    answers = "tests/data/fixed/answers.txt";
    test_run("fixed list: headers of the list of answers", replay_headers);
    test_run("fixed list: lists of the list of answers", replay_lists);
    questions = "tests/data/real/fixed-questions.txt";
    answers = "tests/data/real/fixed-answers.txt";
    test_run("fixed list: headers of files of the HDF5 library", replay_headers);
    test_run("fixed list: files of the HDF5 library", replay_lists);
    test_run("fixed list: the worked example", worked_example);
    test_run("fixed list: arrays of all widths and geometries", built_arrays);
    test_run("fixed list: pages of every size", page_sizes);
    test_run("fixed list: fewer and more entries than chunks", other_numbers_of_entries);
    test_run("fixed list: as many entries as can be told", most_entries);
    test_run("fixed list: pages past 2^64 - 1", far_pages);
    test_run("fixed list: undefined addresses", undefined_addresses);
    test_run("fixed list: address 65,535", address_65535);
    test_run("fixed list: elements that are too small", small_elements);
    test_run("fixed list: fields that aren't looked at", fields_that_are_not_looked_at);
    test_run("fixed list: no numbers for chunks", no_numbers);
    test_run("fixed list: millions of clear pages", clear_pages);
    test_run("fixed list: every byte damaged", damaged_bytes);
    test_run("fixed list: cut at every length", cut_files);
    return test_summary();
}
