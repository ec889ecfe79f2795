/* Random inputs of list and lookup: sound arrays of both kinds and any geometry under any grid, and bytes that are no
 * array. */
#ifndef INPUTS_H
#define INPUTS_H

#include "samples.h"

/* Shapes and corner have room for more lengths than a rank may have. */
enum { INPUT_ENTRIES = SLOTS + 8, INPUT_LENGTHS = 48, INPUT_SLOTS = 40000 };

struct input {
    struct dataset dataset;
    struct call call; /* its shapes and corner are here, its file is the dataset's array */
    uint8_t shapes[4][8 * INPUT_LENGTHS];
    struct slice corner;
    int sound; /* the list is the one that dataset_list() gives */
    struct entry entries[INPUT_ENTRIES];
};

static inline int one_in(uint32_t n)
{
    return random_below(n) == 0;
}

/* A number of any magnitude: a small one, one near a power of two, one near the last, or random bits. */
static inline uint64_t random_number(void)
{
    uint64_t bits = (uint64_t)random_below(UINT32_MAX) << 32 | random_below(UINT32_MAX);

    switch (random_below(4)) {
    case 0:
        return random_below(40);
    case 1:
        return ((uint64_t)1 << random_below(64)) + random_below(5) - 2;
    case 2:
        return UINT64_MAX - random_below(3);
    default:
        return bits >> random_below(64);
    }
}

static inline struct array_parameters random_layout(void)
{
    static const uint8_t widths[] = {2, 4, 8};
    struct array_parameters p = {.offset_size = widths[random_below(3)], .length_size = widths[random_below(3)]};

    p.client = (uint8_t)(one_in(2) ? 0 : one_in(2) ? 1 : 1 + random_below(255));
    p.element_size = (uint8_t)(p.client == 0 ? random_below(256)
                               : one_in(16)  ? p.offset_size + random_below(20)
                                             : p.offset_size + 4u + random_below(9));
    p.max_bits = (uint8_t)(one_in(4) ? random_below(63) : 4 + random_below(20));
    p.inline_count = (uint8_t)random_below(one_in(8) ? 256 : 6);
    p.least = (uint8_t)(1u << random_below(one_in(4) ? 8 : 4));
    p.minimum = (uint8_t)random_below(one_in(16) ? 20 : 6);
    p.page_exponent = (uint8_t)random_below(one_in(8) ? 33 : 5);
    return p;
}

/* Elements in the first slots, and a few far from them. A Fixed Array has bytes for as many as its count says. */
static inline void random_elements(struct input *in)
{
    struct array *a = &in->dataset.array;
    uint64_t slots = a->is_fixed ? INPUT_SLOTS : array_slots(&a->of, INPUT_SLOTS), near = slots_of(&a->of), slot;

    a->entries = in->entries;
    near = near == 0 ? 0 : random_below((uint32_t)near + 1);
    a->entry_count = random_entries(in->entries, near, one_in(3) ? 16 : random_below(17));
    slot = near;
    for (uint32_t far = random_below(4); far > 0; far--) {
        slot += random_below(one_in(2) ? 300 : INPUT_SLOTS / 3);
        if (slot < slots)
            in->entries[a->entry_count++] = (struct entry){slot++, 1 + random_below(60000), random_below(1u << 31),
                                                           random_below(UINT32_MAX)};
    }
    a->count = one_in(8) ? random_number() : one_in(4) ? random_below((uint32_t)slot + 1) : slot + random_below(50);
    if (a->is_fixed && a->count > INPUT_SLOTS)
        a->count = random_below(INPUT_SLOTS);
    if (a->of.length_size < 8)
        a->count &= ((uint64_t)1 << (8 * a->of.length_size)) - 1;
}

/* The lengths of one dimension. Only the leading one has many chunks. */
static inline void random_dimension(struct grid *g, uint64_t d, int leads, int unlimited)
{
    uint64_t chunks = leads ? 1 + random_below(one_in(4) ? 50000 : 500) : 1 + random_below(g->rank > 6 ? 2 : 6);

    g->chunk[d] = g->rank > 6 ? 1 + random_below(8) / 7 : 1 + random_below(5);
    g->present[d] = g->chunk[d] * chunks - random_below((uint32_t)g->chunk[d]);
    g->maximum[d] = unlimited   ? CELLUMAQ_UNLIMITED
                    : one_in(8) ? 1 + g->present[d] / 2
                                : g->present[d] + random_below(g->rank > 6 ? 2 : 9);
}

static inline void random_grid(struct grid *g)
{
    memset(g, 0, sizeof *g);
    g->rank = random_below(one_in(8) ? 33 : 5);
    g->order = one_in(2) ? random_number() : 1;
    g->element_bytes = random_below(20);
    g->has_maximum = one_in(4) ? 0 : one_in(4) ? random_number() : 1;
    int turns = g->order != 0 && !samples_fixed;
    uint64_t lead = turns && g->has_maximum != 0 && g->rank != 0 ? random_below((uint32_t)g->rank) : 0;
    int unlimited = g->has_maximum != 0 && (lead != 0 || !one_in(4));
    for (uint64_t d = 0; d < g->rank; d++)
        random_dimension(g, d, d == lead, d == lead && unlimited);
}

/* The corner of an element, or any corner of the grid, which need not be in the present shape. */
static inline void random_corner(struct input *in)
{
    const struct grid *g = &in->dataset.grid;
    const struct array *a = &in->dataset.array;
    uint64_t offsets[DATASET_RANK], beyond = one_in(4) ? 2 : 0;

    for (uint64_t d = 0; d < g->rank; d++)
        offsets[d] = g->chunk[d] * random_below((uint32_t)((g->present[d] - 1) / g->chunk[d] + 1 + beyond));
    if (a->entry_count != 0 && one_in(2))
        grid_corner(g, a->entries[random_below((uint32_t)a->entry_count)].slot, offsets);
    in->corner = dataset_shape(offsets, g->rank, in->shapes[3]);
}

/* Whether what the file has is what the dataset says: elements are long enough and not too long, addresses fit the
 * offset size, the chunks' sizes 32 bits, and their numbers 64. */
static inline int is_sound(const struct dataset *s)
{
    const struct grid *g = &s->grid;
    uint64_t bytes = g->element_bytes;
    unsigned __int128 chunks = 1;

    for (uint64_t d = 0; d < g->rank && bytes <= UINT32_MAX && chunks <= UINT64_MAX; d++) {
        bytes *= g->chunk[d];
        chunks *= grid_most(g, d) == CELLUMAQ_UNLIMITED ? 1 : grid_chunks(g, d);
    }
    const struct array_parameters *p = &s->array.of;
    int readable = p->client == 0 || (p->element_size >= p->offset_size + 4 && p->element_size <= p->offset_size + 12);
    return readable && bytes <= UINT32_MAX && chunks <= UINT64_MAX && (p->offset_size > 2 || s->array.length < 0xffff);
}

/* Bytes without sense behind junk; perhaps with a header whose fields have none. */
static inline void random_bytes(struct array *a)
{
    size_t length = a->is_fixed ? fixed_header_size(&a->of) : array_header_size(&a->of);

    array_begin(a);
    if (one_in(2)) {
        array_structure(a, a->is_fixed ? "FAHD" : "EAHD", length, 0);
        for (size_t i = 5; i < length; i++)
            a->bytes[a->header + i] = (uint8_t)random_below(one_in(2) ? 20 : 256);
        array_seal(a, a->header, length);
    }
    for (size_t more = random_below(600), at = array_more(a, more, 0); more > 0; more--)
        a->bytes[at++] = (uint8_t)random_below(256);
}

/* Free it with array_free() of its array. */
static inline void random_input(struct input *in)
{
    struct dataset *s = &in->dataset;

    samples_fixed = s->array.is_fixed = one_in(3);
    s->array.of = random_layout();
    s->array.header = random_below(one_in(4) ? 1000 : 2);
    random_elements(in);
    random_grid(&s->grid);
    if (one_in(16)) {
        random_bytes(&s->array);
        in->sound = 0;
    } else {
        dataset_build(s);
        in->sound = is_sound(s);
    }
    in->call = dataset_call(s);
    for (int i = 0; i < 3; i++)
        memcpy(in->shapes[i], s->shapes[i], sizeof s->shapes[i]);
    in->call.chunk.bytes = in->shapes[0];
    in->call.present.bytes = in->shapes[1];
    in->call.maximum.bytes = in->shapes[2];
    random_corner(in);
}

#endif
