/* What list and lookup are asked with. */
#ifndef CALL_H
#define CALL_H

#include <stddef.h>
#include <stdint.h>

struct slice {
    const uint8_t *bytes;
    size_t length;
};

/* A Fixed Array is asked without the order. */
struct call {
    int is_fixed;
    struct slice file;
    uint64_t offset_size, length_size, address, element_bytes, order, rank;
    struct slice chunk, present;
    uint64_t has_maximum;
    struct slice maximum;
};

#endif
