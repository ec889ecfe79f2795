/* A dataset with an array that array.h or fixed.h has built: its shapes, the call that asks about it, and the list that
 * it should have. */
#ifndef DATASET_H
#define DATASET_H

#include "call.h"
#include "fixed.h"

enum { DATASET_RANK = 32 };

/* has_maximum is passed on as it is. */
struct grid {
    uint64_t element_bytes, order, rank, chunk[DATASET_RANK], present[DATASET_RANK], has_maximum, maximum[DATASET_RANK];
};

struct dataset {
    struct array array;
    struct grid grid;
    uint8_t shapes[3][8 * DATASET_RANK];
};

static inline void dataset_build(struct dataset *s)
{
    if (s->array.is_fixed)
        fixed_build(&s->array);
    else
        array_build(&s->array);
}

static inline struct slice dataset_shape(const uint64_t *lengths, uint64_t rank, uint8_t *bytes)
{
    for (size_t d = 0; d < rank; d++)
        cellumaq_put_length(bytes, d, lengths[d]);
    return (struct slice){bytes, 8 * rank};
}

/* The call's slices point into the dataset. */
static inline struct call dataset_call(struct dataset *s)
{
    const struct grid *g = &s->grid;
    const struct array *a = &s->array;
    struct call c = {.is_fixed = a->is_fixed, .file = {a->bytes, a->length}, .offset_size = a->of.offset_size,
                     .length_size = a->of.length_size, .address = a->header, .element_bytes = g->element_bytes,
                     .order = g->order, .rank = g->rank, .has_maximum = g->has_maximum};

    c.chunk = dataset_shape(g->chunk, g->rank, s->shapes[0]);
    c.present = dataset_shape(g->present, g->rank, s->shapes[1]);
    c.maximum = dataset_shape(g->maximum, g->has_maximum != 0 ? g->rank : 0, s->shapes[2]);
    return c;
}

static inline uint64_t grid_most(const struct grid *g, uint64_t d)
{
    return g->has_maximum != 0 ? g->maximum[d] : g->present[d];
}

static inline uint64_t grid_chunks(const struct grid *g, uint64_t d)
{
    return grid_most(g, d) / g->chunk[d] + (grid_most(g, d) % g->chunk[d] != 0);
}

/* The dimensions from the slowest to the fastest. */
static inline void grid_order(const struct grid *g, uint64_t order[DATASET_RANK])
{
    uint64_t lead = g->rank, n = 0;

    if (g->order != 0)
        for (lead = 0; lead < g->rank && grid_most(g, lead) != CELLUMAQ_UNLIMITED; lead++)
            ;
    if (lead < g->rank)
        order[n++] = lead;
    for (uint64_t d = 0; d < g->rank; d++)
        if (d != lead)
            order[n++] = d;
}

/* The corner of a slot, and whether it lies in the present shape. The slot is divided by the dimensions' counts,
 * fastest first. */
static inline int grid_corner(const struct grid *g, uint64_t slot, uint64_t corner[DATASET_RANK])
{
    uint64_t order[DATASET_RANK], inside = 1;

    grid_order(g, order);
    for (uint64_t i = g->rank; i > 0; i--) {
        uint64_t d = order[i - 1], n = grid_chunks(g, d), quotient = i == 1 ? slot : slot % n;

        corner[d] = quotient * g->chunk[d];
        inside = inside && corner[d] < g->present[d];
        if (i != 1)
            slot /= n;
    }
    return inside != 0;
}

/* The size and mask of an entry's chunk. A size field holds as many of the size's bytes as it has. */
static inline void dataset_entry(const struct dataset *s, const struct entry *e, uint64_t *size, uint64_t *mask)
{
    const struct array_parameters *p = &s->array.of;
    size_t width = array_stride(p) - p->offset_size - 4;

    *size = s->grid.element_bytes;
    *mask = 0;
    if (p->client == 0) {
        for (uint64_t d = 0; d < s->grid.rank; d++)
            *size *= s->grid.chunk[d];
    } else {
        *size = width >= 8 ? e->size : e->size & (((uint64_t)1 << (8 * width)) - 1);
        *mask = e->mask;
    }
}

/* The list as it should be, with room for one record more, and how many records it has; free it. */
static inline uint8_t *dataset_list(const struct dataset *s, size_t *count)
{
    size_t record = cellumaq_record_size(s->grid.rank);
    uint8_t *list = malloc((s->array.entry_count + 1) * record), *at = list;

    for (size_t i = 0; i < s->array.entry_count && s->array.entries[i].slot < s->array.count; i++) {
        const struct entry *e = &s->array.entries[i];
        uint64_t corner[DATASET_RANK], size, mask;

        if (!grid_corner(&s->grid, e->slot, corner))
            continue;
        dataset_entry(s, e, &size, &mask);
        array_put(at, e->address, 8);
        array_put(at + 8, size, 4);
        array_put(at + 12, mask, 4);
        for (uint64_t d = 0; d < s->grid.rank; d++)
            array_put(at + 16 + 8 * d, corner[d], 8);
        at += record;
    }
    *count = (size_t)(at - list) / record;
    return list;
}

#endif
