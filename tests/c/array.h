/* Builds the bytes of an extensible array from its parameters and its defined elements. */
#ifndef ARRAY_H
#define ARRAY_H

#include <stdint.h>
#include <stdio.h>
#include <stdlib.h>
#include <string.h>

#include "cellumaq.h"

/* The header's bytes, and the sizes that the file has. Client 0 is unfiltered: an element is an address. */
struct array_parameters {
    uint8_t offset_size, length_size, client, element_size, max_bits, inline_count, least, minimum, page_exponent;
};

/* A defined element. */
struct entry {
    uint64_t slot, address, size;
    uint32_t mask;
};

/* A part of the file with a checksum of its own, of the kind that its signature names; a page has none. Its elements
 * begin with a slot. */
struct structure {
    const char *signature;
    size_t start, length;
    uint64_t slot;
};

struct array {
    int is_fixed; /* whether it is a Fixed Array, which fixed.h builds */
    struct array_parameters of;
    uint64_t count;              /* the published count */
    const struct entry *entries; /* in rising order of slots */
    size_t entry_count;
    size_t header; /* where it begins; there is junk before it */

    uint8_t *bytes;
    size_t length, room;
    struct structure *structures; /* in the order in which a list comes to them; free both with array_free() */
    size_t structure_count;
};

/* Geometry. */

static inline uint64_t array_super_blocks(const struct array_parameters *p)
{
    unsigned exponent = 0;

    while (p->least >> exponent > 1)
        exponent++;
    return (p->max_bits > exponent ? p->max_bits - exponent : 0) + 1u;
}

static inline uint64_t array_blocks(uint64_t u)
{
    return (uint64_t)1 << u / 2;
}

static inline uint64_t array_block_elements(const struct array_parameters *p, uint64_t u)
{
    return (uint64_t)p->least << (u + 1) / 2;
}

/* How many super blocks have their data blocks named in the index block, and how many data blocks these are. */
static inline uint64_t array_direct_supers(const struct array_parameters *p)
{
    return p->minimum < array_super_blocks(p) ? p->minimum : array_super_blocks(p);
}

static inline uint64_t array_direct_blocks(const struct array_parameters *p)
{
    uint64_t blocks = 0;

    for (uint64_t u = 0; u < array_direct_supers(p); u++)
        blocks += array_blocks(u);
    return blocks;
}

static inline uint64_t array_page_elements(const struct array_parameters *p)
{
    return (uint64_t)1 << p->page_exponent;
}

/* Blocks that the index block names are never paged. */
static inline uint64_t array_pages(const struct array_parameters *p, uint64_t u)
{
    int paged = u >= array_direct_supers(p) && array_block_elements(p, u) > array_page_elements(p);

    return paged ? array_block_elements(p, u) / array_page_elements(p) : 0;
}

/* How many slots an array has, but not more than `most`. */
static inline uint64_t array_slots(const struct array_parameters *p, uint64_t most)
{
    uint64_t slots = p->inline_count;

    for (uint64_t u = 0; u < array_super_blocks(p) && slots < most; u++)
        slots += array_blocks(u) * array_block_elements(p, u);
    return slots < most ? slots : most;
}

static inline size_t array_stride(const struct array_parameters *p)
{
    return p->client == 0 ? p->offset_size : p->element_size;
}

static inline size_t array_header_size(const struct array_parameters *p)
{
    return 16u + 6u * p->length_size + p->offset_size;
}

/* Signature, version, client and header address; then the block offset. */
static inline size_t array_head(const struct array_parameters *p)
{
    return 6u + p->offset_size;
}

static inline size_t array_block_head(const struct array_parameters *p)
{
    return array_head(p) + (p->max_bits + 7u) / 8;
}

static inline size_t array_index_block_size(const struct array_parameters *p)
{
    size_t pointers = array_direct_blocks(p) + array_super_blocks(p) - array_direct_supers(p);

    return array_head(p) + p->inline_count * array_stride(p) + pointers * p->offset_size + 4;
}

/* Bytes. */

static inline void array_put(uint8_t *at, uint64_t number, size_t width)
{
    for (size_t i = 0; i < width; i++)
        at[i] = i < 8 ? (uint8_t)(number >> (8 * i)) : 0;
}

/* So many more bytes at the end; where they begin. */
static inline size_t array_more(struct array *a, size_t length, uint8_t fill)
{
    size_t start = a->length;

    if (a->bytes == NULL || a->length + length > a->room) {
        a->room = 2 * (a->length + length) + 1;
        a->bytes = realloc(a->bytes, a->room);
    }
    if (a->bytes == NULL) {
        fprintf(stderr, "no memory for an array of %zu bytes\n", a->room);
        exit(1);
    }
    memset(a->bytes + start, fill, length);
    a->length += length;
    return start;
}

/* A structure at the end, with its signature, client and header address; where it begins. */
static inline size_t array_structure(struct array *a, const char *signature, size_t length, uint64_t slot)
{
    size_t start = array_more(a, length, 0);

    a->structures = realloc(a->structures, (a->structure_count + 1) * sizeof *a->structures);
    if (a->structures == NULL)
        exit(1);
    a->structures[a->structure_count++] = (struct structure){signature, start, length, slot};
    if (*signature != 0) {
        memcpy(a->bytes + start, signature, 4);
        a->bytes[start + 5] = a->of.client;
        array_put(a->bytes + start + 6, a->header, a->of.offset_size);
    }
    return start;
}

static inline void array_seal(struct array *a, size_t start, size_t length)
{
    array_put(a->bytes + start + length - 4, cellumaq_checksum(a->bytes + start, length - 4), 4);
}

/* The first entry from a slot on. */
static inline size_t array_from(const struct array *a, uint64_t slot)
{
    size_t low = 0, high = a->entry_count;

    while (low < high) {
        size_t middle = low + (high - low) / 2;

        if (a->entries[middle].slot < slot)
            low = middle + 1;
        else
            high = middle;
    }
    return low;
}

static inline int array_has(const struct array *a, uint64_t slot, uint64_t elements)
{
    size_t first = array_from(a, slot);

    return first < a->entry_count && a->entries[first].slot - slot < elements;
}

/* The elements of so many slots: an address, and for a filtered chunk its size and mask. */
static inline void array_elements(struct array *a, size_t at, uint64_t slot, uint64_t elements)
{
    size_t stride = array_stride(&a->of), offset_size = a->of.offset_size;

    memset(a->bytes + at, 0xff, elements * stride);
    for (size_t i = array_from(a, slot); i < a->entry_count && a->entries[i].slot - slot < elements; i++) {
        const struct entry *e = &a->entries[i];
        uint8_t *element = a->bytes + at + (e->slot - slot) * stride;

        array_put(element, e->address, offset_size);
        if (a->of.client != 0 && stride >= offset_size + 4) {
            array_put(element + offset_size, e->size, stride - offset_size - 4);
            array_put(element + stride - 4, e->mask, 4);
        }
    }
}

/* The pages of a data block behind its head, with the elements of the slots up to `last`: those without a defined one
 * are clear, and their bytes are junk. */
static inline void array_put_pages(struct array *a, size_t bits, uint64_t first_bit, uint64_t pages, uint64_t slot,
                                   uint64_t last)
{
    uint64_t most = array_page_elements(&a->of);

    for (uint64_t p = 0; p < pages; p++, slot += most) {
        uint64_t elements = last - slot < most ? last - slot : most;
        size_t length = elements * array_stride(&a->of) + 4;

        if (!array_has(a, slot, elements)) {
            array_more(a, length, 0xee);
            continue;
        }
        size_t page = array_structure(a, "", length, slot);

        a->bytes[bits + (first_bit + p) / 8] |= (uint8_t)(0x80 >> (first_bit + p) % 8);
        array_elements(a, page, slot, elements);
        array_seal(a, page, length);
    }
}

/* Data block k of super block u; where it begins. */
static inline size_t array_data_block(struct array *a, size_t bits, uint64_t u, uint64_t k, uint64_t slot)
{
    uint64_t pages = array_pages(&a->of, u), elements = array_block_elements(&a->of, u);
    size_t head = array_block_head(&a->of), length = head + 4 + (pages != 0 ? 0 : elements * array_stride(&a->of));
    size_t block = array_structure(a, "EADB", length, slot);

    array_put(a->bytes + block + array_head(&a->of), slot - a->of.inline_count, head - array_head(&a->of));
    if (pages == 0)
        array_elements(a, block + head, slot, elements);
    array_seal(a, block, length);
    array_put_pages(a, bits, k * pages, pages, slot, slot + elements);
    return block;
}

/* The data blocks of super block u whose pointers begin at a position; those without a defined element are not
 * there. */
static inline void array_data_blocks(struct array *a, size_t pointers, size_t bits, uint64_t u, uint64_t slot)
{
    uint64_t elements = array_block_elements(&a->of, u);

    for (uint64_t k = 0; k < array_blocks(u); k++, slot += elements) {
        uint64_t address = array_has(a, slot, elements) ? array_data_block(a, bits, u, k, slot) : UINT64_MAX;

        array_put(a->bytes + pointers + k * a->of.offset_size, address, a->of.offset_size);
    }
}

static inline size_t array_super_block(struct array *a, uint64_t u, uint64_t slot)
{
    size_t head = array_block_head(&a->of), bits = (array_pages(&a->of, u) + 7) / 8 * array_blocks(u);
    size_t length = head + bits + array_blocks(u) * a->of.offset_size + 4,
           block = array_structure(a, "EASB", length, slot);

    array_put(a->bytes + block + array_head(&a->of), slot - a->of.inline_count, head - array_head(&a->of));
    array_data_blocks(a, block + head + bits, block + head, u, slot);
    array_seal(a, block, length);
    return block;
}

static inline size_t array_index_block(struct array *a)
{
    const struct array_parameters *p = &a->of;
    size_t length = array_index_block_size(p), block = array_structure(a, "EAIB", length, 0),
           at = block + array_head(p);
    uint64_t slot = p->inline_count;

    array_elements(a, at, 0, p->inline_count);
    at += p->inline_count * array_stride(p);
    for (uint64_t u = 0; u < array_super_blocks(p); u++) {
        uint64_t elements = array_blocks(u) * array_block_elements(p, u);

        if (u < array_direct_supers(p)) {
            array_data_blocks(a, at, 0, u, slot);
            at += array_blocks(u) * p->offset_size;
        } else {
            uint64_t address = array_has(a, slot, elements) ? array_super_block(a, u, slot) : UINT64_MAX;

            array_put(a->bytes + at, address, p->offset_size);
            at += p->offset_size;
        }
        slot += elements;
    }
    array_seal(a, block, length);
    return block;
}

/* A file with nothing but the junk before the header. */
static inline void array_begin(struct array *a)
{
    a->bytes = NULL;
    a->structures = NULL;
    a->length = a->room = a->structure_count = 0;
    array_more(a, a->header, 0x45);
}

/* Of the six statistics the fifth is the count; the others are junk. */
static inline void array_build(struct array *a)
{
    const struct array_parameters *p = &a->of;
    size_t length = array_header_size(p);

    array_begin(a);
    array_structure(a, "EAHD", length, 0);
    memcpy(
        a->bytes + a->header + 5,
        (uint8_t[]){p->client, p->element_size, p->max_bits, p->inline_count, p->least, p->minimum, p->page_exponent},
        7);
    memset(a->bytes + a->header + 12, 0xab, 6u * p->length_size);
    array_put(a->bytes + a->header + 12 + 4 * p->length_size, a->count, p->length_size);
    size_t index_block = array_index_block(a);

    array_put(a->bytes + a->header + length - 4 - p->offset_size, index_block, p->offset_size);
    array_seal(a, a->header, length);
}

static inline void array_free(struct array *a)
{
    free(a->bytes);
    free(a->structures);
}

#endif
