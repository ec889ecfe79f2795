/* Random changes of an input: of the file's bytes, with and without new checksums, and of every argument. */
#ifndef CHANGES_H
#define CHANGES_H

#include "inputs.h"

static inline void seal(struct array *a, const struct structure *t)
{
    if (t->start + t->length <= a->length)
        array_seal(a, t->start, t->length);
}

static inline const struct structure *random_structure(const struct array *a)
{
    return &a->structures[random_below((uint32_t)a->structure_count)];
}

/* Any byte, or one near the start or the end of a structure. */
static inline void change_byte(struct array *a)
{
    const struct structure *t = random_structure(a);
    size_t near = random_below(16), at = one_in(3)   ? random_below((uint32_t)a->length)
                                         : one_in(2) ? t->start + near
                                                     : t->start + t->length - 1 - near;

    if (at < a->length)
        a->bytes[at] = one_in(2) ? a->bytes[at] ^ (uint8_t)(1u << random_below(8)) : (uint8_t)random_below(256);
}

/* A byte behind the signature of a structure, which has a right checksum again. */
static inline void change_field(struct array *a)
{
    const struct structure *t = random_structure(a);
    size_t at = t->start + random_below((uint32_t)t->length - 4);

    if (at < a->length)
        a->bytes[at] = (uint8_t)random_below(one_in(2) ? 4 : 256);
    seal(a, t);
}

/* Where a pointer may lead: to a structure, itself included, to the end of the file, nowhere, anywhere. */
static inline uint64_t random_target(const struct array *a)
{
    switch (random_below(5)) {
    case 0:
        return a->length - random_below(a->length < 40 ? 1 : 40);
    case 1:
        return UINT64_MAX;
    case 2:
        return one_in(2) ? random_number() : random_below((uint32_t)a->length + 1);
    default:
        return random_structure(a)->start;
    }
}

static inline int has_pointers(const struct structure *t)
{
    return strcmp(t->signature, "EAIB") == 0 || strcmp(t->signature, "EASB") == 0;
}

/* One pointer, or all from some pointer on, lead elsewhere: those of an index block or super block, counted from its
 * end. In a Fixed Array's data block elements or page bits are changed so. */
static inline void change_pointers(struct array *a)
{
    const struct structure *t = random_structure(a);
    size_t width = a->of.offset_size, fields;

    for (int tries = 0; tries < 20 && !has_pointers(t); tries++)
        t = a->is_fixed && a->structure_count > 1 ? &a->structures[1] : random_structure(a);
    fields = t->length > array_head(&a->of) + 4 ? (t->length - array_head(&a->of) - 4) / width : 0;
    if (fields == 0 || t->start + t->length > a->length)
        return;
    uint8_t *end = a->bytes + t->start + t->length - 4;
    size_t field = random_below((uint32_t)fields), last = one_in(2) ? field : random_below((uint32_t)fields);
    uint64_t target = one_in(3) ? cellumaq_get(end - (1 + random_below((uint32_t)fields)) * width, width)
                                : random_target(a);
    for (; field <= last; field++)
        array_put(end - (1 + field) * width, target, width);
    seal(a, t);
}

/* A parameter, the count, or the address of the index block or data block. */
static inline void change_header(struct array *a)
{
    const struct structure *t = a->structures;
    uint8_t *header = a->bytes + t->start;
    uint32_t parameters = a->is_fixed ? 3 : 7;

    if (t->start + t->length > a->length)
        return;
    switch (random_below(3)) {
    case 0:
        array_put(header + (a->is_fixed ? 8 : 12 + 4 * a->of.length_size), random_number(), a->of.length_size);
        break;
    case 1:
        array_put(header + t->length - 4 - a->of.offset_size, random_target(a), a->of.offset_size);
        break;
    default:
        header[5 + random_below(parameters)] = (uint8_t)(one_in(2) ? random_below(256) : 1u << random_below(8));
    }
    seal(a, t);
}

/* The file ends early, perhaps at the end of a structure; or late. */
static inline void change_length(struct array *a)
{
    const struct structure *t = random_structure(a);

    if (one_in(4))
        array_more(a, random_below(64), 0xff);
    else if (one_in(2))
        a->length = random_below((uint32_t)a->length + 1);
    else if (t->start + t->length <= a->length)
        a->length = t->start + t->length - random_below(2);
}

/* A structure is written over another place, which may be in the midst of others. */
static inline void change_place(struct array *a)
{
    const struct structure *t = random_structure(a);
    uint64_t to = one_in(2) ? random_structure(a)->start : random_below((uint32_t)a->length);

    if (t->start + t->length <= a->length && to + t->length <= a->length)
        memmove(a->bytes + to, a->bytes + t->start, t->length);
}

static inline void change_file(struct array *a)
{
    static void (*const changes[])(struct array *) = {change_byte,     change_field,  change_field,  change_pointers,
                                                      change_pointers, change_header, change_length, change_place};

    if (a->structure_count != 0 && a->length != 0)
        changes[random_below(sizeof changes / sizeof *changes)](a);
}

/* A length in one of the shapes or the corner, or how many bytes such a slice has. */
static inline void change_shape(struct input *in)
{
    struct slice *slices[] = {&in->call.chunk, &in->call.present, &in->call.maximum, &in->corner};
    uint32_t i = random_below(4);

    if (one_in(4))
        slices[i]->length = one_in(2) ? 8 * random_below(INPUT_LENGTHS + 1) : random_below(8 * INPUT_LENGTHS + 1);
    else
        cellumaq_put_length(in->shapes[i], random_below((uint32_t)(in->dataset.grid.rank + 1)), random_number());
}

/* All shapes and the corner get another rank; what was behind their ends becomes lengths. */
static inline void change_rank(struct input *in)
{
    uint64_t rank = random_below(INPUT_LENGTHS + 1);

    in->call.rank = rank;
    in->call.chunk.length = in->call.present.length = in->call.maximum.length = in->corner.length = 8 * rank;
    for (uint64_t d = in->dataset.grid.rank; d < rank; d++)
        for (int i = 0; i < 3; i++)
            cellumaq_put_length(in->shapes[i], d, one_in(8) ? random_number() : 1 + random_below(3));
}

static inline void change_argument(struct input *in)
{
    uint64_t *numbers[] = {&in->call.offset_size, &in->call.length_size, &in->call.address,    &in->call.element_bytes,
                           &in->call.order,       &in->call.rank,        &in->call.has_maximum};

    if (one_in(2))
        change_shape(in);
    else if (one_in(8))
        change_rank(in);
    else
        *numbers[random_below(sizeof numbers / sizeof *numbers)] = one_in(2) ? random_number()
                                                                             : (uint64_t)1 << random_below(8);
}

/* Some changes, or none. */
static inline void random_changes(struct input *in)
{
    for (uint32_t n = one_in(4) ? 0 : 1 + random_below(3); n > 0; n--) {
        in->sound = 0;
        if (one_in(3))
            change_argument(in);
        else
            change_file(&in->dataset.array);
    }
    in->call.file = (struct slice){in->dataset.array.bytes, in->dataset.array.length};
}

#endif
