/* Finds the chunk index of a dataset in its object header: of version 2, with a data layout message of version 4. */
#ifndef LAYOUT_H
#define LAYOUT_H

#include <stdint.h>
#include <string.h>

#include "cellumaq.h"

enum { MESSAGE_LAYOUT = 8, MESSAGE_CONTINUATION = 16, CHUNKED = 2, FIXED_ARRAY = 3, EXTENSIBLE_ARRAY = 4 };

/* The kind of an index and the address of its header, or the address UINT64_MAX where there is none of these kinds. */
struct chunk_index {
    int kind;
    uint64_t address;
};

static const struct chunk_index no_index = {0, UINT64_MAX};

/* Messages of one block of an object header, and what a search in them needs to know of the file. */
struct messages {
    const uint8_t *file;
    uint64_t file_length, offset_size, length_size;
    int has_order; /* each message has a creation order of 2 bytes */
};

/* The index in a data layout message of `length` bytes. */
static inline struct chunk_index layout_index(const struct messages *m, const uint8_t *layout, uint64_t length)
{
    if (length < 5 || layout[0] != 4 || layout[1] != CHUNKED)
        return no_index;
    /* Behind version, class, flags, rank and width of a length: the lengths, the kind of index, and the parameters of a
     * Fixed Array, one, or of an extensible array, five. */
    uint64_t kind = 5 + (uint64_t)layout[3] * layout[4];
    if (length <= kind || (layout[kind] != FIXED_ARRAY && layout[kind] != EXTENSIBLE_ARRAY))
        return no_index;
    uint64_t address = kind + (layout[kind] == FIXED_ARRAY ? 2 : 6);
    if (length < address + m->offset_size)
        return no_index;
    return (struct chunk_index){layout[kind], cellumaq_get(layout + address, m->offset_size)};
}

/* The index that the messages between two positions have. */
static inline struct chunk_index search_messages(const struct messages *m, uint64_t at, uint64_t end)
{
    uint64_t head = m->has_order ? 6 : 4;
    struct chunk_index found = no_index;

    if (end > m->file_length)
        return no_index;
    while (found.address == UINT64_MAX && at + head <= end) {
        const uint8_t *message = m->file + at;
        uint64_t length = cellumaq_get(message + 1, 2);

        if (at + head + length > end)
            break;
        if (message[0] == MESSAGE_LAYOUT)
            found = layout_index(m, message + head, length);
        if (message[0] == MESSAGE_CONTINUATION && length == m->offset_size + m->length_size) {
            uint64_t block = cellumaq_get(message + head, m->offset_size),
                     block_length = cellumaq_get(message + head + m->offset_size, m->length_size);

            if (block_length >= 8 && block < m->file_length && block_length <= m->file_length - block &&
                memcmp(m->file + block, "OCHK", 4) == 0)
                found = search_messages(m, block + 4, block + block_length - 4);
        }
        at += head + length;
    }
    return found;
}

/* The index of the dataset whose object header begins at a position. */
static inline struct chunk_index index_of(const uint8_t *file, uint64_t file_length, uint64_t offset_size,
                                          uint64_t length_size, uint64_t header)
{
    if (header + 6 > file_length || memcmp(file + header, "OHDR", 4) != 0 || file[header + 4] != 2)
        return no_index;
    uint8_t flags = file[header + 5];
    uint64_t at = header + 6 + ((flags & 0x20) != 0 ? 16 : 0) + ((flags & 0x10) != 0 ? 4 : 0),
             width = (uint64_t)1 << (flags & 3);
    if (at + width > file_length)
        return no_index;
    struct messages m = {file, file_length, offset_size, length_size, (flags & 4) != 0};
    return search_messages(&m, at + width, at + width + cellumaq_get(file + at, width));
}

#endif
