/* A dataset as it is given on the command line: FILE OFFSETSIZE LENGTHSIZE ADDRESS ELEMENTBYTES CHUNK PRESENT MAXIMUM.
 * A shape is lengths with commas, `*` is unlimited. */
#ifndef DATASET_H
#define DATASET_H

#include <inttypes.h>
#include <string.h>

#include "cellumaq.h"
#include "file.h"

enum { DATASET_ARGUMENTS = 8 };

/* Reads the lengths of a shape, or the offsets of a corner; how many they are. */
static size_t read_lengths(const char *text, uint64_t lengths[CELLUMAQ_RANK_MOST])
{
    size_t rank = 0;

    for (; *text != 0 && rank < CELLUMAQ_RANK_MOST; rank++) {
        lengths[rank] = *text == '*' ? CELLUMAQ_UNLIMITED : strtoull(text, NULL, 10);
        text += strcspn(text, ",");
        text += *text == ',';
    }
    return rank;
}

/* The same; exits where they aren't as many as the dataset has dimensions. */
static void read_shape(const struct cellumaq_dataset *d, const char *text, uint64_t lengths[CELLUMAQ_RANK_MOST])
{
    if (read_lengths(text, lengths) != d->rank) {
        fprintf(stderr, "%s: not as many numbers as a chunk has lengths\n", text);
        exit(1);
    }
}

/* The file is never freed: the program ends when it has its answer. */
static struct cellumaq_dataset read_dataset(char **arguments)
{
    struct cellumaq_dataset d = {0};

    d.file = read_all(arguments[0], &d.file_length);
    d.offset_size = strtoull(arguments[1], NULL, 10);
    d.length_size = strtoull(arguments[2], NULL, 10);
    d.address = strtoull(arguments[3], NULL, 10);
    d.element_bytes = strtoull(arguments[4], NULL, 10);
    d.order = CELLUMAQ_UNLIMITED_FIRST;
    d.rank = read_lengths(arguments[5], d.chunk);
    read_shape(&d, arguments[6], d.present);
    read_shape(&d, arguments[7], d.maximum);
    return d;
}

/* Whether the index is a Fixed Array, by the first bytes of its header. */
static int has_fixed_array(const struct cellumaq_dataset *d)
{
    return d->file_length >= 4 && d->address <= d->file_length - 4 && memcmp(d->file + d->address, "FAHD", 4) == 0;
}

/* Whether an answer is a refusal; tells it. */
static int is_refused(const struct cellumaq_answer *a)
{
    if (a->refusal != CELLUMAQ_ACCEPTED)
        fprintf(stderr, "refused: %" PRIu64 ", figures %" PRIu64 " and %" PRIu64 "\n", a->refusal, a->first, a->second);
    return a->refusal != CELLUMAQ_ACCEPTED;
}

#endif
