/* A file that makes much of few bytes: a super block names one data block again and again, and lies in that block's
 * elements, so that both are large. */
#ifndef HOSTILE_H
#define HOSTILE_H

#include "array.h"

/* Where in the data block the super block begins, behind the block's head. */
enum { HOSTILE_SUPER_AT = 16 };

/* Offsets of 2 bytes, no inline elements, one element in the least block, no pages. */
static const struct array_parameters hostile_layout = {2, 8, 0, 2, 0, 0, 1, 0, 32};

struct hostile {
    struct array array; /* free it with array_free() */
    size_t block;       /* where the data block begins */
};

/* Super block u, odd and 9 at least, has all its pointers to the same block; the other super blocks aren't there. Where
 * one pointer is `wrong`, it leads to the header. */
static inline struct hostile hostile_array(unsigned u, uint64_t count, uint64_t wrong)
{
    struct array a = {.of = hostile_layout, .count = count};

    a.of.max_bits = (uint8_t)u;
    array_build(&a);
    size_t head = array_block_head(&a.of), block_length = head + array_block_elements(&a.of, u) * 2 + 4,
           super_length = head + array_blocks(u) * 2 + 4;
    size_t index = a.structures[1].start, block = array_structure(&a, "EADB", block_length, 0),
           super = block + HOSTILE_SUPER_AT;

    memset(a.bytes + block + head, 1, block_length - head);
    memcpy(a.bytes + super, "EASB", 4);
    for (uint64_t k = 0; k < array_blocks(u); k++)
        array_put(a.bytes + super + head + 2 * k, k == wrong ? 0 : block, 2);
    array_seal(&a, super, super_length);
    array_seal(&a, block, block_length);
    array_put(a.bytes + index + array_head(&a.of) + 2 * u, super, 2);
    array_seal(&a, index, a.structures[1].length);
    return (struct hostile){a, block};
}

/* Paged blocks of 2^11 pages with one element each in super block 22: 2^22 pages, none of them set. */
static inline struct array clear_pages_array(void)
{
    struct array a = {.of = hostile_layout, .count = UINT64_MAX};
    const unsigned u = 22;

    a.of.max_bits = (uint8_t)u;
    a.of.page_exponent = 0;
    array_build(&a);
    uint64_t blocks = array_blocks(u);
    size_t head = array_block_head(&a.of), bits = blocks * array_pages(&a.of, u) / 8,
           length = head + bits + 2 * blocks + 4;
    size_t index = a.structures[1].start, block = array_structure(&a, "EADB", head + 4, 0),
           super = array_structure(&a, "EASB", length, 0);

    for (uint64_t k = 0; k < blocks; k++)
        array_put(a.bytes + super + head + bits + 2 * k, block, 2);
    array_seal(&a, block, head + 4);
    array_seal(&a, super, length);
    array_put(a.bytes + index + array_head(&a.of) + 2 * u, super, 2);
    array_seal(&a, index, a.structures[1].length);
    return a;
}

#endif
