/* Checks of lookups against refusals and lists, and the tests in arrays that are built here, whole, damaged and cut,
 * which any kind of index has. */
#ifndef LOOKUP_CHECKS_H
#define LOOKUP_CHECKS_H

#include "list_checks.h"
#include "vectors.h"

static inline void check_lookup_refusal(const struct call *c, struct slice corner, uint64_t refusal, uint64_t first,
                                        uint64_t second, const char *what)
{
    check_refused(ask_lookup(c, corner, what), refusal, first, second, what);
}

/* The lookup of a corner gives a record of a list, or nothing where `record` is NULL. */
static inline void check_found(const struct call *c, const uint8_t *corner, const uint8_t *record, const char *what)
{
    size_t length = 8 * c->rank;

    if (record == NULL) {
        CHECK(call_lookup(c, corner, length, 3) == 0 && call_lookup(c, corner, length, 0) == 0,
              "%s: a chunk that the list hasn't", what);
        return;
    }
    CHECK(call_lookup(c, corner, length, 3) == 1 && call_lookup(c, corner, length, 4) == cellumaq_get(record, 8) &&
              call_lookup(c, corner, length, 5) == cellumaq_get(record + 8, 4) &&
              call_lookup(c, corner, length, 6) == cellumaq_get(record + 12, 4),
          "%s: another record than the list's", what);
}

/* Steps a corner on by some chunks, the last dimension fastest; 0 behind the present shape. */
static inline int step(const struct call *c, uint8_t *corner, uint64_t chunks)
{
    for (size_t d = c->rank; d > 0 && chunks != 0; d--) {
        uint64_t length = cellumaq_get(c->chunk.bytes + 8 * d - 8, 8),
                 present = cellumaq_get(c->present.bytes + 8 * d - 8, 8);
        uint64_t all = present / length + (present % length != 0),
                 index = cellumaq_get(corner + 8 * d - 8, 8) / length + chunks;

        chunks = d == 1 ? 0 : index / all;
        if (d == 1 && index >= all)
            return 0;
        cellumaq_put_length(corner, d - 1, (d == 1 ? index : index % all) * length);
    }
    return 1;
}

/* Every record of an accepted list is found; of the other corners all, or of very many a part, are not. */
static inline void check_agreement(const struct question *q, const char *answer, const char *what)
{
    const struct call *c = &q->call;
    size_t rank = c->rank, record = cellumaq_record_size(rank), room = 4096 * record;
    uint8_t *list = malloc(room), corner[8 * VECTOR_RANK] = {0};
    uint64_t chunks = 1;
    uint64_t count = call_list(c, list, room, CELLUMAQ_COUNT);

    if (strncmp(answer, "ok ", 3) == 0)
        CHECK(count == strtoull(answer + 3, NULL, 10), "%s: %" PRIu64 " records", what, count);
    for (size_t i = 0; i < count; i++)
        check_found(c, list + i * record + 16, list + i * record, what);
    for (size_t d = 0; d < rank; d++)
        chunks *= (cellumaq_get(c->present.bytes + 8 * d, 8) - 1) / cellumaq_get(c->chunk.bytes + 8 * d, 8) + 1;
    do {
        check_found(c, corner, record_of(list, count, rank, corner), what);
    } while (rank != 0 && step(c, corner, 1 + chunks / 2000));
    free(list);
}

/* The lookup of each slot's corner in an array that is built here, and of some behind its count. */
static inline void check_slots(struct dataset *s, uint64_t slots, const char *what)
{
    struct call c = dataset_call(s);
    size_t count;
    uint8_t *list = dataset_list(s, &count), corner[8 * DATASET_RANK];

    for (uint64_t slot = 0; slot < slots; slot++) {
        uint64_t offsets[DATASET_RANK];

        if (!grid_corner(&s->grid, slot, offsets))
            continue;
        for (size_t d = 0; d < s->grid.rank; d++)
            cellumaq_put_length(corner, d, offsets[d]);
        check_found(&c, corner, record_of(list, count, s->grid.rank, corner), what);
    }
    free(list);
}

/* Every slot of arrays of all widths and geometries, with every count near the begin and some others, under every grid
 * with dimensions. */
static inline void built_slots(void)
{
    static const uint32_t chances[] = {16, 9, 1};
    static struct entry entries[SLOTS];
    char what[128];

    for (int l = 0; l < LAYOUTS; l++) {
        uint64_t slots = slots_of(&layouts[l]);

        for (uint64_t count = 0; count <= slots + 1; count += count < 4 ? 1 : 1 + random_below(97)) {
            struct dataset s = {.array = {.is_fixed = samples_fixed, .of = layouts[l], .count = count,
                                          .entries = entries, .header = random_below(70)}};

            s.array.entry_count = random_entries(entries, slots, chances[random_below(3)]);
            dataset_build(&s);
            for (int g = 1; g < grids_of_kind(); g++) {
                snprintf(what, sizeof what, "layout %d, grid %d, count %" PRIu64, l, g, count);
                s.grid = grids[g];
                check_slots(&s, slots + 5, what);
            }
            array_free(&s.array);
        }
    }
}

/* Whether the way to a slot leads over a structure: the header and the index block always; for a slot below the count
 * the super block, data block and page that begin with the first slot of its super block, data block and page. */
static inline int on_the_array_way(const struct array *a, const struct structure *t, uint64_t slot)
{
    const struct array_parameters *p = &a->of;
    uint64_t first = p->inline_count, u = 0;

    if (t->slot == 0)
        return 1;
    if (slot >= a->count || slot < first)
        return 0;
    while (slot - first >= array_blocks(u) * array_block_elements(p, u)) {
        first += array_blocks(u) * array_block_elements(p, u);
        u++;
    }
    uint64_t elements = array_block_elements(p, u), in_block = (slot - first) % elements;
    if (strcmp(t->signature, "EASB") == 0)
        return t->slot == first;
    if (strcmp(t->signature, "EADB") == 0)
        return t->slot == slot - in_block;
    return t->slot == slot - in_block % array_page_elements(p);
}

/* The same in a Fixed Array: the header always; for a slot below the count the data block, and the page that begins
 * with the first slot of its page. */
static inline int on_the_fixed_way(const struct array *a, const struct structure *t, uint64_t slot)
{
    if (strcmp(t->signature, "FAHD") == 0)
        return 1;
    if (slot >= a->count)
        return 0;
    return strcmp(t->signature, "FADB") == 0 || t->slot == slot - slot % array_page_elements(&a->of);
}

static inline int on_the_way(const struct array *a, const struct structure *t, uint64_t slot)
{
    return a->is_fixed ? on_the_fixed_way(a, t, slot) : on_the_array_way(a, t, slot);
}

/* One bit of one structure is another: every lookup whose way leads over it is refused, every other one answers as
 * before. */
static inline void check_damaged_way(struct dataset *s)
{
    struct call c = dataset_call(s);
    uint8_t corner[8];
    char what[128];
    size_t count;
    uint8_t *list = dataset_list(s, &count);

    for (size_t i = 0; i < s->array.structure_count; i++) {
        const struct structure *t = &s->array.structures[i];
        uint8_t *bytes = s->array.bytes + t->start;

        for (uint64_t slot = 0; slot < 70; slot++) {
            size_t byte = 5 + random_below((uint32_t)t->length - 5);

            cellumaq_put_length(corner, 0, slot);
            snprintf(what, sizeof what, "slot %" PRIu64 ", byte %zu of structure %zu, %s", slot, byte, i, t->signature);
            if (on_the_way(&s->array, t, slot)) {
                bytes[byte] ^= 4;
                check_lookup_refusal(&c, (struct slice){corner, 8}, CELLUMAQ_REFUSED_CHECKSUM,
                                     cellumaq_get(bytes + t->length - 4, 4),
                                     lookup3_reference(bytes, t->length - 4, 0), what);
                bytes[byte] ^= 4;
            } else {
                for (size_t k = 0; k < t->length; k++)
                    bytes[k] ^= 0xff;
                check_found(&c, corner, record_of(list, count, 1, corner), what);
                for (size_t k = 0; k < t->length; k++)
                    bytes[k] ^= 0xff;
            }
        }
    }
    free(list);
}

/* Of a file that ends early only what isn't on the way may be missing. */
static inline void check_cut_way(struct dataset *s)
{
    uint8_t corner[8];
    char what[128];
    size_t count;
    uint8_t *list = dataset_list(s, &count);

    for (size_t length = 0; length <= s->array.length; length += 1 + random_below(7)) {
        for (uint64_t slot = 0; slot < 70; slot += 1 + random_below(3)) {
            struct call c = dataset_call(s);
            const struct structure *t = s->array.structures, *end = t + s->array.structure_count;

            c.file.length = length;
            cellumaq_put_length(corner, 0, slot);
            while (t != end && (t->start + t->length <= length || !on_the_way(&s->array, t, slot)))
                t++;
            snprintf(what, sizeof what, "slot %" PRIu64 " in the first %zu bytes", slot, length);
            if (t != end)
                check_lookup_refusal(&c, (struct slice){corner, 8}, CELLUMAQ_REFUSED_PAST_END,
                                     missed_end(&s->array, t, length), length, what);
            else
                check_found(&c, corner, record_of(list, count, 1, corner), what);
        }
    }
    free(list);
}

static inline void damaged_ways(void)
{
    for_small_arrays(&grids[2], check_damaged_way);
}

static inline void cut_ways(void)
{
    for_small_arrays(&grids[2], check_cut_way);
}

#endif
