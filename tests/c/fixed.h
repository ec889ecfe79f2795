/* Builds the bytes of a Fixed Array into the struct that array.h has for an extensible one. Of the parameters a Fixed
 * Array has the sizes, the client, the element size and the page exponent; its count is the number of entries. */
#ifndef FIXED_H
#define FIXED_H

#include "array.h"

static inline size_t fixed_header_size(const struct array_parameters *p)
{
    return 12u + p->length_size + p->offset_size;
}

/* 0 where the entries aren't paged. */
static inline uint64_t fixed_pages(const struct array *a)
{
    uint64_t most = array_page_elements(&a->of);

    return a->count > most ? (a->count - 1) / most + 1 : 0;
}

/* The pages up to the last defined entry; behind it all are clear, and the file ends. */
static inline void fixed_put_pages(struct array *a, size_t bits)
{
    size_t below = array_from(a, a->count);
    uint64_t pages = below == 0 ? 0 : a->entries[below - 1].slot / array_page_elements(&a->of) + 1;

    array_put_pages(a, bits, 0, pages, 0, a->count);
}

/* The data block; where it begins. */
static inline size_t fixed_data_block(struct array *a)
{
    uint64_t pages = fixed_pages(a);
    size_t body = pages != 0 ? (pages - 1) / 8 + 1 : a->count * array_stride(&a->of);
    size_t length = array_head(&a->of) + body + 4, block = array_structure(a, "FADB", length, 0);

    if (pages == 0)
        array_elements(a, block + array_head(&a->of), 0, a->count);
    else
        fixed_put_pages(a, block + array_head(&a->of));
    array_seal(a, block, length);
    return block;
}

static inline void fixed_build(struct array *a)
{
    const struct array_parameters *p = &a->of;
    size_t length = fixed_header_size(p);

    array_begin(a);
    array_structure(a, "FAHD", length, 0);
    memcpy(a->bytes + a->header + 5, (uint8_t[]){p->client, p->element_size, p->page_exponent}, 3);
    array_put(a->bytes + a->header + 8, a->count, p->length_size);
    size_t block = fixed_data_block(a);

    array_put(a->bytes + a->header + 8 + p->length_size, block, p->offset_size);
    array_seal(a, a->header, length);
}

/* Where a structure ends that the first `length` bytes don't have whole, by the first test that they fail: of a Fixed
 * Array's data block the head is looked for before. */
static inline uint64_t missed_end(const struct array *a, const struct structure *t, size_t length)
{
    size_t head = t->start + array_head(&a->of);

    return strcmp(t->signature, "FADB") == 0 && head > length ? head : t->start + t->length;
}

#endif
