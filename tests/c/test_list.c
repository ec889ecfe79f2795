/* cellumaq_list: lists of questions and answers, real files, and files that are built here, whole, damaged and cut.
 *
 * test_list QUESTIONS ANSWERS replays those two lists alone. */
#define _DEFAULT_SOURCE
#include "list_checks.h"
#include "replay.h"

/* Questions and answers. */

static void check_checksum(const struct question *q, const char *answer, const char *what)
{
    for (int where = LENT_LOW; where <= LENT_BETWEEN; where++) {
        uint8_t *at = lent_put(&call_lent[CALL_FILE], q->call.file.bytes, q->call.file.length, (enum lent_where)where);
        char text[32];

        snprintf(text, sizeof text, "ok %u", cellumaq_checksum(at, q->call.file.length));
        CHECK(strcmp(text, answer) == 0, "%s: %s, not %s", what, text, answer);
        CHECK(lent_stays(&call_lent[CALL_FILE], q->call.file.bytes), "%s: the bytes were written", what);
    }
}

static int is_served(const struct array_parameters *p)
{
    return p->least != 0 && p->least <= 128 && (p->least & (p->least - 1)) == 0 && p->max_bits <= 62 &&
           p->minimum <= 32 && p->page_exponent <= 32;
}

/* A header has no call of its own, but it is read first in a list, and where it is accepted its fields say whether it
 * is served and where the index block must end. */
static void check_header(const struct question *q, const char *answer, const char *what)
{
    struct cellumaq_answer a = ask_list(&q->call, 0, NULL, what);
    uint64_t count, index_block;
    struct array_parameters p = {.offset_size = (uint8_t)q->call.offset_size};

    if (is_refused(a, answer, what))
        return;
    CHECK(sscanf(answer, "ok %hhu %hhu %hhu %hhu %hhu %hhu %hhu %" SCNu64 " %" SCNu64, &p.client, &p.element_size,
                 &p.max_bits, &p.inline_count, &p.least, &p.minimum, &p.page_exponent, &count, &index_block) == 9,
          "%s: an answer of another form", what);
    if (!is_served(&p))
        check_refused(a, CELLUMAQ_REFUSED_HEADER_NOT_SERVED, 0, 0, what);
    else if (is_past_end(a, &q->call, index_block, array_index_block_size(&p), what))
        return;
    else if (memcmp(q->call.file.bytes + index_block, "EAIB", 4) != 0)
        check_refused(a, CELLUMAQ_REFUSED_INDEX_BLOCK_SIGNATURE, 0, 0, what);
    else
        CHECK(a.refusal == 0 || a.refusal == CELLUMAQ_REFUSED_LIST_TOO_SMALL ||
                  (a.refusal >= 20 && a.refusal != 21 && a.refusal != 22 && a.refusal != 27),
              "%s: refusal %" PRIu64 " of an accepted header", what, a.refusal);
}

static void replay_checksums(void)
{
    replay("checksum", check_checksum);
}

static void replay_headers(void)
{
    replay("header", check_header);
}

static void replay_lists(void)
{
    replay("list", check_list_line);
}

static void replay_all(void)
{
    unsigned long replayed = vector_replay(questions, answers, "checksum", check_checksum);

    replayed += vector_replay(questions, answers, "header", check_header);
    replayed += vector_replay(questions, answers, "list", check_list_line);
    CHECK(replayed != 0, "%s has no question", questions);
}

/* Arrays that are built here. */

/* One array by its bytes and its list by its numbers. */
static void worked_example(void)
{
    struct dataset s = worked(plain, line);
    struct call c = dataset_call(&s);
    uint8_t list[72];
    struct cellumaq_answer a = ask_list(&c, sizeof list, list, "the worked example");

    CHECK(s.array.structures[0].length == 72 && s.array.structures[1].length == 282 &&
              s.array.structures[2].length == 150,
          "sizes of the structures");
    CHECK(a.refusal == 0 && a.count == 2, "%" PRIu64 " records", a.count);
    CHECK(cellumaq_record_address(list, 1, 0) == 4096 && cellumaq_record_chunk_size(list, 1, 0) == 40 &&
              cellumaq_record_mask(list, 1, 0) == 0 && cellumaq_record_offset(list, 1, 0, 0) == 0,
          "the first record");
    CHECK(cellumaq_record_address(list, 1, 1) == 8192 && cellumaq_record_chunk_size(list, 1, 1) == 40 &&
              cellumaq_record_mask(list, 1, 1) == 0 && cellumaq_record_offset(list, 1, 1, 0) == 20,
          "the second record");
    array_free(&s.array);
}

/* Few elements, far from each other: super blocks and data blocks that aren't there, and clear pages, are stepped
 * over. */
static void far_elements(void)
{
    static const struct entry entries[] = {
        {3, 4096, 7, 0},      {4, 4104, 7, 1},      {243, 4112, 7, 2},    {244, 4120, 7, 3},
        {8180, 1, 7, 4},      {65523, 4136, 7, 5},  {131059, 2, 7, 6},    {131060, 4144, 7, 7},
        {132083, 4152, 7, 0}, {132084, 4160, 7, 9}, {133107, 4168, 7, 8}, {262131, 4176, 7, UINT32_MAX},
        {1048563, 0, 7, 1},
    };
    char what[128];

    for (int l = 0; l < 2; l++) {
        for (size_t n = 0; n < sizeof entries / sizeof *entries; n++) {
            struct dataset s = {
                .array = {.of = layouts[l], .count = entries[n].slot + 1, .entries = entries + n, .entry_count = 1},
                .grid = grids[1]};

            s.grid.present[0] = CELLUMAQ_UNLIMITED - 1;
            array_build(&s.array);
            snprintf(what, sizeof what, "layout %d, slot %" PRIu64 " alone", l, entries[n].slot);
            check_dataset(&s, what);
            array_free(&s.array);
        }
        struct dataset s = {.array = {.of = layouts[l], .count = 2000000, .entries = entries,
                                      .entry_count = sizeof entries / sizeof *entries}};

        s.grid = grids[2];
        array_build(&s.array);
        snprintf(what, sizeof what, "layout %d, far slots together", l);
        check_dataset(&s, what);
        array_free(&s.array);
    }
}

/* Whether the list of an array without gaps comes to a structure: data blocks that the index block names, and super
 * blocks, only up to the count; all data blocks of a super block; a page unless one before it has run past the
 * count. */
static int is_reached(const struct structure *t, const struct structure *super_block, uint64_t first_of_block,
                      uint64_t count)
{
    if (t->slot == 0)
        return 1;
    if (super_block == NULL || t == super_block)
        return t->slot < count;
    return super_block->slot < count && (*t->signature != 0 || t->slot == first_of_block || t->slot <= count);
}

/* What lies past the count is tested just as far as it should be. */
static void past_the_count(void)
{
    static struct entry entries[64];
    char what[128];

    for (uint64_t slot = 0; slot < 64; slot++)
        entries[slot] = (struct entry){slot, 500 + slot, 9, 0};
    for (uint64_t count = 0; count <= 64; count++) {
        struct dataset s = {
            .array = {.of = {8, 8, 0, 8, 5, 1, 1, 3, 0}, .count = count, .entries = entries, .entry_count = 64},
            .grid = grids[2]};
        const struct structure *super_block = NULL;
        uint64_t first_of_block = 0;

        array_build(&s.array);
        struct call c = dataset_call(&s);
        for (size_t i = 0; i < s.array.structure_count; i++) {
            const struct structure *t = &s.array.structures[i];
            uint8_t *bytes = s.array.bytes + t->start;

            if (strcmp(t->signature, "EASB") == 0)
                super_block = t;
            if (strcmp(t->signature, "EADB") == 0)
                first_of_block = t->slot;
            snprintf(what, sizeof what, "count %" PRIu64 ", damage in structure %zu, %s", count, i, t->signature);
            bytes[t->length - 1] ^= 0x10;
            if (is_reached(t, super_block, first_of_block, count))
                check_refusal(&c, CELLUMAQ_REFUSED_CHECKSUM, cellumaq_get(bytes + t->length - 4, 4),
                              lookup3_reference(bytes, t->length - 4, 0), what);
            else
                check_same(&c, &s, what);
            bytes[t->length - 1] ^= 0x10;
        }
        array_free(&s.array);
    }
}

int main(int argc, char **argv)
{
    if (argc == 3) {
        questions = argv[1];
        answers = argv[2];
        test_run("list: the given questions", replay_all);
        return test_summary();
    }
    questions = "tests/data/list/questions.txt";
    answers = "tests/data/list/answers.txt";
    test_run("list: checksums of the list of answers", replay_checksums);
    test_run("list: headers of the list of answers", replay_headers);
    test_run("list: lists of the list of answers", replay_lists);
    questions = "tests/data/real/questions.txt";
    answers = "tests/data/real/answers.txt";
    test_run("list: files of the HDF5 library", replay_lists);
    test_run("list: the worked example", worked_example);
    test_run("list: arrays of all widths and geometries", built_arrays);
    test_run("list: elements far from each other", far_elements);
    test_run("list: every byte damaged", damaged_bytes);
    test_run("list: cut at every length", cut_files);
    test_run("list: what is tested past the count", past_the_count);
    return test_summary();
}
