/* What cellumaq_fixed_list and cellumaq_fixed_lookup answer, by a second implementation: plain, slow, with exact sums.
 * A step answers whether the next one comes; if it doesn't, the answer is a refusal. */
#ifndef FIXED_MODEL_H
#define FIXED_MODEL_H

#include <string.h>

#include "call.h"
#include "cellumaq.h"
#include "lookup3.h"

typedef unsigned __int128 model_sum;

/* A call, the fields of the header, the grid, and the answer so far. */
struct model {
    const struct call *call;
    uint64_t client, element_size, page_exponent, entries, block;
    uint64_t counts[CELLUMAQ_RANK_MOST], multipliers[CELLUMAQ_RANK_MOST];
    struct cellumaq_answer answer;
};

struct model_chunk {
    int is_there;
    uint64_t address, size, mask, corner[CELLUMAQ_RANK_MOST];
};

static inline int model_refuse(struct model *m, uint64_t refusal, model_sum first, model_sum second)
{
    m->answer = (struct cellumaq_answer){.refusal = refusal,
                                         .first = first > UINT64_MAX ? UINT64_MAX : (uint64_t)first,
                                         .second = second > UINT64_MAX ? UINT64_MAX : (uint64_t)second};
    return 0;
}

static inline uint64_t model_get(const struct model *m, model_sum at, uint64_t width)
{
    return cellumaq_get(m->call->file.bytes + (size_t)at, (size_t)width);
}

/* The tests of a structure: where it ends, its signature, its checksum. */

static inline int model_ends(struct model *m, model_sum start, model_sum length)
{
    return start + length <= m->call->file.length || model_refuse(m, 20, start + length, m->call->file.length);
}

static inline int model_signed(struct model *m, model_sum start, const char *signature, uint64_t refusal)
{
    return memcmp(m->call->file.bytes + (size_t)start, signature, 4) == 0 || model_refuse(m, refusal, 0, 0);
}

static inline int model_sealed(struct model *m, model_sum start, model_sum length)
{
    uint64_t stored = model_get(m, start + length - 4, 4),
             computed = lookup3_reference(m->call->file.bytes + (size_t)start, (size_t)length - 4, 0);

    return stored == computed || model_refuse(m, 26, stored, computed);
}

static inline int model_whole(struct model *m, model_sum start, model_sum length)
{
    return model_ends(m, start, length) && model_sealed(m, start, length);
}

/* The header. */

static inline int model_is_width(uint64_t width)
{
    return width == 2 || width == 4 || width == 8;
}

static inline int model_header(struct model *m)
{
    const struct call *c = m->call;
    model_sum at = c->address, length = (model_sum)12 + c->length_size + c->offset_size;

    if (!model_ends(m, at, length) || !model_signed(m, at, "FAHD", 34))
        return 0;
    if (model_get(m, at + 4, 1) != 0)
        return model_refuse(m, 22, model_get(m, at + 4, 1), 0);
    if (!model_is_width(c->length_size))
        return model_refuse(m, 2, c->length_size, 0);
    if (!model_is_width(c->offset_size))
        return model_refuse(m, 1, c->offset_size, 0);
    m->client = model_get(m, at + 5, 1);
    m->element_size = model_get(m, at + 6, 1);
    m->page_exponent = model_get(m, at + 7, 1);
    m->entries = model_get(m, at + 8, c->length_size);
    m->block = model_get(m, at + 8 + c->length_size, c->offset_size);
    return model_sealed(m, at, length);
}

static inline int model_served(struct model *m)
{
    return m->page_exponent <= 32 || model_refuse(m, 27, 0, 0);
}

static inline int model_is_undefined(const struct model *m, uint64_t address)
{
    return address == UINT64_MAX >> (64 - 8 * m->call->offset_size);
}

/* The grid. */

static inline uint64_t model_length(struct slice shape, uint64_t d)
{
    return cellumaq_get(shape.bytes + 8 * d, 8);
}

/* How many chunks a dimension has; CELLUMAQ_UNLIMITED, which no finite length makes, where it has no end. */
static inline uint64_t model_count(const struct call *c, uint64_t d)
{
    uint64_t chunk = model_length(c->chunk, d), most = model_length(c->has_maximum != 0 ? c->maximum : c->present, d);

    return most == CELLUMAQ_UNLIMITED ? most : most / chunk + (most % chunk != 0);
}

/* The multipliers from the last dimension on, then the product of all counts. */
static inline int model_grid(struct model *m)
{
    model_sum product = 1;

    for (uint64_t d = m->call->rank; d > 0; d--) {
        m->multipliers[d - 1] = (uint64_t)product;
        m->counts[d - 1] = model_count(m->call, d - 1);
        if (d == 1)
            break;
        if (m->counts[d - 1] == CELLUMAQ_UNLIMITED)
            return model_refuse(m, 7, 0, 0);
        product *= m->counts[d - 1] != 0 ? m->counts[d - 1] : 1;
        if (product > UINT64_MAX)
            return model_refuse(m, 8, 0, 0);
    }
    product = 1;
    for (uint64_t d = 0; d < m->call->rank && m->counts[0] != CELLUMAQ_UNLIMITED; d++) {
        product *= m->counts[d];
        if (product > UINT64_MAX)
            return model_refuse(m, 8, 0, 0);
    }
    return 1;
}

static inline int model_shapes(struct model *m)
{
    const struct call *c = m->call;

    if (c->rank > CELLUMAQ_RANK_MOST || c->chunk.length != 8 * c->rank)
        return model_refuse(m, 3, 0, 0);
    if (c->present.length != 8 * c->rank)
        return model_refuse(m, 4, 0, 0);
    if (c->has_maximum != 0 && c->maximum.length != 8 * c->rank)
        return model_refuse(m, 5, 0, 0);
    for (uint64_t d = 0; d < c->rank; d++)
        if (model_length(c->chunk, d) == 0)
            return model_refuse(m, 6, 0, 0);
    return model_grid(m);
}

/* Data block and pages. */

static inline uint64_t model_stride(const struct model *m)
{
    return m->client == 0 ? m->call->offset_size : m->element_size;
}

static inline uint64_t model_page_entries(const struct model *m)
{
    return (uint64_t)1 << m->page_exponent;
}

static inline int model_is_paged(const struct model *m)
{
    return m->entries > model_page_entries(m);
}

static inline model_sum model_pages(const struct model *m)
{
    return ((model_sum)m->entries + model_page_entries(m) - 1) / model_page_entries(m);
}

/* Where the elements or the page bits begin. */
static inline model_sum model_body(const struct model *m)
{
    return (model_sum)m->block + 6 + m->call->offset_size;
}

static inline model_sum model_body_length(const struct model *m)
{
    return model_is_paged(m) ? (model_pages(m) + 7) / 8 : (model_sum)m->entries * model_stride(m);
}

static inline int model_block(struct model *m)
{
    if (!model_ends(m, m->block, model_body(m) - m->block) || !model_signed(m, m->block, "FADB", 35))
        return 0;
    if (m->client != 0 && m->element_size < m->call->offset_size + 4)
        return model_refuse(m, 28, 0, 0);
    return model_whole(m, m->block, model_body(m) + model_body_length(m) + 4 - m->block);
}

static inline int model_page_is_set(const struct model *m, uint64_t page)
{
    return (model_get(m, model_body(m) + page / 8, 1) & 128 >> page % 8) != 0;
}

static inline uint64_t model_entries_of(const struct model *m, uint64_t page)
{
    uint64_t rest = m->entries - page * model_page_entries(m);

    return rest < model_page_entries(m) ? rest : model_page_entries(m);
}

static inline model_sum model_page_begin(const struct model *m, uint64_t page)
{
    model_sum stride = (model_sum)model_page_entries(m) * model_stride(m) + 4;

    return model_body(m) + model_body_length(m) + 4 + page * stride;
}

static inline int model_page(struct model *m, uint64_t page)
{
    model_sum offset = model_page_begin(m, page) - model_page_begin(m, 0);

    if (offset > UINT64_MAX)
        return model_refuse(m, 31, page, offset / page);
    return model_whole(m, model_page_begin(m, page), (model_sum)model_entries_of(m, page) * model_stride(m) + 4);
}

/* Elements. */

static inline int model_corner(struct model *m, uint64_t slot, uint64_t *corner)
{
    for (uint64_t d = 1; d < m->call->rank; d++)
        if (m->counts[d] == 0)
            return model_refuse(m, 32, 0, 0);
    for (uint64_t d = 0; d < m->call->rank; d++) {
        model_sum offset = (model_sum)(slot / m->multipliers[d]) * model_length(m->call->chunk, d);

        if (offset > UINT64_MAX)
            return model_refuse(m, 33, 0, 0);
        corner[d] = (uint64_t)offset;
        slot %= m->multipliers[d];
    }
    return 1;
}

static inline int model_is_present(const struct model *m, const uint64_t *corner)
{
    for (uint64_t d = 0; d < m->call->rank; d++)
        if (corner[d] >= model_length(m->call->present, d))
            return 0;
    return 1;
}

/* The bytes of a whole chunk, or one more than 64 bits hold. */
static inline model_sum model_chunk_bytes(const struct model *m)
{
    model_sum bytes = m->call->element_bytes;

    for (uint64_t d = 0; d < m->call->rank; d++) {
        bytes *= model_length(m->call->chunk, d);
        if (bytes > UINT64_MAX)
            bytes = (model_sum)UINT64_MAX + 1;
    }
    return bytes;
}

static inline int model_size(struct model *m, model_sum at, struct model_chunk *chunk)
{
    model_sum size = model_chunk_bytes(m);

    if (m->client != 0) {
        uint64_t offset_size = m->call->offset_size, width = m->element_size - offset_size - 4;

        if (width > 8)
            return model_refuse(m, 29, 0, 0);
        size = model_get(m, at + offset_size, width);
        chunk->mask = model_get(m, at + offset_size + width, 4);
    }
    chunk->size = (uint64_t)size;
    return size <= UINT32_MAX || model_refuse(m, 30, size, 0);
}

static inline int model_element(struct model *m, model_sum at, uint64_t slot, struct model_chunk *chunk)
{
    *chunk = (struct model_chunk){.address = model_get(m, at, m->call->offset_size)};
    if (model_is_undefined(m, chunk->address))
        return 1;
    if (!model_corner(m, slot, chunk->corner))
        return 0;
    if (!model_is_present(m, chunk->corner))
        return 1;
    chunk->is_there = 1;
    return model_size(m, at, chunk);
}

/* The list. */

static inline void model_record(const struct model *m, const struct model_chunk *chunk, uint8_t *record)
{
    cellumaq_put_length(record, 0, chunk->address);
    cellumaq_put_length(record, 1, chunk->size | chunk->mask << 32);
    for (uint64_t d = 0; d < m->call->rank; d++)
        cellumaq_put_length(record, 2 + d, chunk->corner[d]);
}

/* So many elements; the records that there is room for are written. */
static inline int model_elements(struct model *m, model_sum at, uint64_t slot, uint64_t n, uint8_t *list, uint64_t room)
{
    struct model_chunk chunk;

    for (uint64_t i = 0; i < n; i++) {
        if (!model_element(m, at + (model_sum)i * model_stride(m), slot + i, &chunk))
            return 0;
        if (!chunk.is_there)
            continue;
        if (m->answer.count < room)
            model_record(m, &chunk, list + m->answer.count * cellumaq_record_size(m->call->rank));
        m->answer.count++;
    }
    return 1;
}

static inline int model_all_elements(struct model *m, uint8_t *list, uint64_t room)
{
    if (!model_is_paged(m))
        return model_elements(m, model_body(m), 0, m->entries, list, room);
    for (uint64_t page = 0; page < model_pages(m); page++)
        if (model_page_is_set(m, page) &&
            !(model_page(m, page) && model_elements(m, model_page_begin(m, page), page * model_page_entries(m),
                                                    model_entries_of(m, page), list, room)))
            return 0;
    return 1;
}

static inline struct cellumaq_answer model_list(const struct call *c, uint8_t *list, size_t list_length)
{
    struct model m = {.call = c};
    uint64_t room;

    if (!(model_header(&m) && model_shapes(&m) && model_served(&m)) || model_is_undefined(&m, m.block))
        return m.answer;
    room = list_length / cellumaq_record_size(c->rank);
    if (model_block(&m) && model_all_elements(&m, list, room) && m.answer.count > room)
        model_refuse(&m, 9, m.answer.count, 0);
    return m.answer;
}

/* The lookup. */

static inline int model_is_corner(struct model *m, struct slice corner)
{
    int is_one = corner.length == 8 * m->call->rank;

    for (uint64_t d = 0; d < m->call->rank && is_one; d++)
        is_one = model_length(corner, d) % model_length(m->call->chunk, d) == 0 &&
                 model_length(corner, d) < model_length(m->call->present, d);
    return is_one || model_refuse(m, 10, 0, 0);
}

/* The slot of a corner, or a number that no slot has. */
static inline model_sum model_slot(const struct model *m, struct slice corner)
{
    const model_sum none = (model_sum)UINT64_MAX + 1;
    model_sum slot = 0;

    for (uint64_t d = 0; d < m->call->rank; d++) {
        uint64_t quotient = model_length(corner, d) / model_length(m->call->chunk, d);

        if (d > 0 && quotient >= m->counts[d])
            return none;
        slot += (model_sum)quotient * m->multipliers[d];
        if (slot > UINT64_MAX)
            return none;
    }
    return slot;
}

/* The chunk of a slot below the entries, if it has one. */
static inline int model_find(struct model *m, uint64_t slot, struct model_chunk *chunk)
{
    uint64_t page = slot / model_page_entries(m), in_page = slot % model_page_entries(m);

    if (!model_block(m))
        return 0;
    if (!model_is_paged(m))
        return model_element(m, model_body(m) + (model_sum)slot * model_stride(m), slot, chunk);
    if (!model_page_is_set(m, page))
        return 1;
    return model_page(m, page) &&
           model_element(m, model_page_begin(m, page) + (model_sum)in_page * model_stride(m), slot, chunk);
}

static inline struct cellumaq_answer model_lookup(const struct call *c, struct slice corner)
{
    struct model m = {.call = c};
    struct model_chunk chunk = {0};

    if (!(model_header(&m) && model_shapes(&m) && model_is_corner(&m, corner) && model_served(&m)) ||
        model_is_undefined(&m, m.block) || model_slot(&m, corner) >= m.entries)
        return m.answer;
    if (model_find(&m, (uint64_t)model_slot(&m, corner), &chunk) && chunk.is_there)
        m.answer = (struct cellumaq_answer){
            .count = 1, .address = chunk.address, .size = chunk.size, .mask = chunk.mask};
    return m.answer;
}

#endif
