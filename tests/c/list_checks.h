/* Checks of a list against a refusal or a dataset, and the tests of arrays that are built here, whole, damaged and cut,
 * which any kind of index has. */
#ifndef LIST_CHECKS_H
#define LIST_CHECKS_H

#include <inttypes.h>

#include "calls.h"
#include "lookup3.h"
#include "samples.h"

static inline void check_refusal(const struct call *c, uint64_t refusal, uint64_t first, uint64_t second,
                                 const char *what)
{
    uint8_t records[4096];

    check_refused(ask_list(c, sizeof records, records, what), refusal, first, second, what);
}

/* The list of a call is the dataset's. */
static inline void check_same(const struct call *c, const struct dataset *s, const char *what)
{
    size_t record = cellumaq_record_size(s->grid.rank), count, length;
    uint8_t *expected = dataset_list(s, &count), *records = malloc((count + 1) * record);

    length = count * record + random_below((uint32_t)record);
    struct cellumaq_answer a = ask_list(c, length, records, what);
    CHECK(a.refusal == 0 && a.count == count, "%s: refusal %" PRIu64 ", %" PRIu64 " records, not %zu", what, a.refusal,
          a.count, count);
    CHECK(a.count != count || memcmp(records, expected, count * record) == 0, "%s: other records", what);
    if (count != 0) {
        a = ask_list(c, count * record - 1, records, what);
        CHECK(a.refusal == CELLUMAQ_REFUSED_LIST_TOO_SMALL && a.first == count && a.second == 0,
              "%s: refusal %" PRIu64 " of too small a list", what, a.refusal);
    }
    free(expected);
    free(records);
}

static inline void check_dataset(struct dataset *s, const char *what)
{
    struct call c = dataset_call(s);

    check_same(&c, s, what);
}

/* Arrays of all widths and geometries, dense, sparse and empty, with every count near the begin and some others, under
 * every grid. */
static inline void built_arrays(void)
{
    static const uint32_t chances[] = {16, 9, 1, 0};
    static struct entry entries[SLOTS];
    char what[128];

    for (int l = 0; l < LAYOUTS; l++) {
        uint64_t slots = slots_of(&layouts[l]);

        for (uint64_t count = 0; count <= slots + 1; count += count < 20 ? 1 : 1 + random_below(37)) {
            uint32_t chance = chances[random_below(4)];
            struct dataset s = {.array = {.is_fixed = samples_fixed, .of = layouts[l], .count = count,
                                          .entries = entries, .header = random_below(70)}};

            s.array.entry_count = random_entries(entries, slots, chance);
            dataset_build(&s);
            for (int g = 0; g < grids_of_kind(); g++) {
                snprintf(what, sizeof what, "layout %d, grid %d, count %" PRIu64 ", chance %u", l, g, count, chance);
                s.grid = grids[g];
                check_dataset(&s, what);
            }
            array_free(&s.array);
        }
    }
}

/* The refusal of a structure in which one byte is another. */
static inline uint64_t refusal_of(const struct structure *t, size_t byte)
{
    static const struct {
        const char *signature;
        uint64_t refusal;
    } kinds[] = {{"EAHD", CELLUMAQ_REFUSED_HEADER_SIGNATURE},
                 {"EAIB", CELLUMAQ_REFUSED_INDEX_BLOCK_SIGNATURE},
                 {"EADB", CELLUMAQ_REFUSED_DATA_BLOCK_SIGNATURE},
                 {"EASB", CELLUMAQ_REFUSED_SUPER_BLOCK_SIGNATURE},
                 {"FAHD", CELLUMAQ_REFUSED_FIXED_HEADER_SIGNATURE},
                 {"FADB", CELLUMAQ_REFUSED_FIXED_DATA_BLOCK_SIGNATURE}};

    for (size_t i = 0; i < sizeof kinds / sizeof *kinds && byte < 4; i++)
        if (strcmp(t->signature, kinds[i].signature) == 0)
            return kinds[i].refusal;
    return byte == 4 && (strcmp(t->signature, "EAHD") == 0 || strcmp(t->signature, "FAHD") == 0)
               ? CELLUMAQ_REFUSED_HEADER_VERSION
               : CELLUMAQ_REFUSED_CHECKSUM;
}

/* No byte of a structure can be another without a refusal, and it is the right one. */
static inline void check_damaged(struct dataset *s)
{
    struct call c = dataset_call(s);
    char what[128];

    check_dataset(s, "before any damage");
    for (size_t i = 0; i < s->array.structure_count; i++) {
        const struct structure *t = &s->array.structures[i];
        uint8_t *bytes = s->array.bytes + t->start;

        for (size_t byte = 0; byte < t->length; byte++) {
            uint8_t bit = (uint8_t)(1 << random_below(8));

            bytes[byte] ^= bit;
            uint64_t refusal = refusal_of(t, byte), first = 0, second = 0;
            if (refusal == CELLUMAQ_REFUSED_CHECKSUM) {
                first = cellumaq_get(bytes + t->length - 4, 4);
                second = lookup3_reference(bytes, t->length - 4, 0);
            } else if (refusal == CELLUMAQ_REFUSED_HEADER_VERSION) {
                first = bytes[4];
            }
            snprintf(what, sizeof what, "byte %zu of structure %zu, %s", byte, i, t->signature);
            check_refusal(&c, refusal, first, second, what);
            bytes[byte] ^= bit;
        }
    }
}

/* A file that ends early is refused at the first structure that isn't whole; bytes of clear pages may be missing. */
static inline void check_cut(struct dataset *s)
{
    char what[128];

    for (size_t length = 0; length <= s->array.length; length++) {
        struct call c = dataset_call(s);
        const struct structure *t = s->array.structures, *end = t + s->array.structure_count;

        c.file.length = length;
        snprintf(what, sizeof what, "the first %zu bytes", length);
        while (t != end && t->start + t->length <= length)
            t++;
        if (t != end)
            check_refusal(&c, CELLUMAQ_REFUSED_PAST_END, missed_end(&s->array, t, length), length, what);
        else
            check_same(&c, s, what);
    }
}

/* Small arrays under a grid, with pages and without. */
static inline void for_small_arrays(const struct grid *grid, void (*check)(struct dataset *s))
{
    for (int has_pages = 0; has_pages <= 1; has_pages++) {
        struct dataset s = small_array(has_pages);

        s.grid = *grid;
        check(&s);
        array_free(&s.array);
    }
}

static inline void damaged_bytes(void)
{
    for_small_arrays(&grids[3], check_damaged);
}

static inline void cut_files(void)
{
    for_small_arrays(&grids[3], check_cut);
}

#endif
