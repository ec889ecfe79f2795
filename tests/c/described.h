/* The functions on a struct cellumaq_dataset beside the calls: whatever a call with shapes of its rank answers, they
 * do. */
#ifndef DESCRIBED_H
#define DESCRIBED_H

#include "calls.h"

/* Whether a struct can describe what a call is given: its shapes have the rank's lengths, unless the rank is too large
 * for any. */
static inline int is_described(const struct call *c)
{
    size_t length = 8 * c->rank;

    return c->rank > CELLUMAQ_RANK_MOST || (c->chunk.length == length && c->present.length == length &&
                                            (c->has_maximum == 0 || c->maximum.length == length));
}

/* The dataset of such a call. */
static inline struct cellumaq_dataset described(const struct call *c)
{
    struct cellumaq_dataset d = {.file = c->file.bytes, .file_length = c->file.length, .offset_size = c->offset_size,
                                 .length_size = c->length_size, .address = c->address,
                                 .element_bytes = c->element_bytes, .order = c->order, .rank = c->rank};
    const struct slice *maximum = c->has_maximum != 0 ? &c->maximum : &c->present;

    for (size_t i = 0; i < c->rank && c->rank <= CELLUMAQ_RANK_MOST; i++) {
        d.chunk[i] = cellumaq_get(c->chunk.bytes + 8 * i, 8);
        d.present[i] = cellumaq_get(c->present.bytes + 8 * i, 8);
        d.maximum[i] = cellumaq_get(maximum->bytes + 8 * i, 8);
    }
    return d;
}

/* The call that answers as the struct is to: elements without bytes are too large, and a maximum below the present
 * shape is of another rank. */
static inline struct call plain_call(const struct call *c)
{
    struct call plain = *c;

    if (c->element_bytes == 0)
        plain.element_bytes = UINT64_MAX;
    for (size_t i = 0; i < c->rank && c->rank <= CELLUMAQ_RANK_MOST && c->has_maximum != 0; i++)
        if (cellumaq_get(c->maximum.bytes + 8 * i, 8) < cellumaq_get(c->present.bytes + 8 * i, 8))
            plain.maximum = (struct slice){NULL, 0};
    return plain;
}

/* The struct and the corner are lent before pages that may not be touched. */
static struct lent lent_dataset, lent_offsets;

static inline const struct cellumaq_dataset *lend_described(const struct call *c)
{
    struct cellumaq_dataset d = described(c);

    return (const void *)lent_put(&lent_dataset, (const uint8_t *)&d, sizeof d, LENT_HIGH);
}

/* The header's functions on a dataset with an index of one kind. */
struct described_functions {
    cellumaq_list_function *list;
    cellumaq_lookup_function *lookup;
    struct cellumaq_answer (*ask_list)(const struct cellumaq_dataset *d, uint8_t *list, size_t list_length);
    struct cellumaq_answer (*ask_lookup)(const struct cellumaq_dataset *d, const uint64_t *corner);
};

static const struct described_functions described_by[] = {
    {cellumaq_list_dataset, cellumaq_lookup_dataset, cellumaq_ask_list, cellumaq_ask_lookup},
    {cellumaq_fixed_list_dataset, cellumaq_fixed_lookup_dataset, cellumaq_ask_fixed_list, cellumaq_ask_fixed_lookup}};

/* Number `which` of an answer. */
static inline uint64_t picked_of(const struct cellumaq_answer *a, uint64_t which)
{
    const uint64_t numbers[] = {a->refusal, a->first, a->second, a->count, a->address, a->size, a->mask};

    return numbers[which < sizeof numbers / sizeof *numbers ? which : 0];
}

/* The list: every number, and all bytes, some behind the list with them. */
static inline void check_described_list(const struct call *c, size_t length, const char *what)
{
    enum { BEHIND = 64, FILL = 0xa7 };
    const struct described_functions *by = &described_by[c->is_fixed];
    const struct cellumaq_dataset *d = lend_described(c);
    struct call plain = plain_call(c);
    uint8_t *expected = malloc(length + BEHIND), *list = malloc(length + BEHIND);

    memset(expected, FILL, length + BEHIND);
    memset(list, FILL, length + BEHIND);
    struct cellumaq_answer a = by->ask_list(d, list, length);
    for (int i = 0; i < CALL_PICKS; i++) {
        uint64_t number = call_list(&plain, expected, length, call_picks[i]);

        CHECK(memcmp(list, expected, length + BEHIND) == 0, "%s: another list of the struct", what);
        CHECK(picked_of(&a, call_picks[i]) == number && by->list(d, list, length, call_picks[i]) == number,
              "%s: number %" PRIu64 " of the struct's list isn't %" PRIu64, what, call_picks[i], number);
    }
    free(expected);
    free(list);
}

/* The lookup of a corner with the rank's length. Where the rank is 0 or too large, there is nothing to look at. */
static inline void check_described_lookup(const struct call *c, struct slice corner, const char *what)
{
    const struct described_functions *by = &described_by[c->is_fixed];
    const struct cellumaq_dataset *d = lend_described(c);
    struct call plain = plain_call(c);
    uint64_t offsets[CELLUMAQ_RANK_MOST];
    size_t rank = c->rank <= CELLUMAQ_RANK_MOST ? c->rank : 0;

    for (size_t i = 0; i < rank; i++)
        offsets[i] = cellumaq_get(corner.bytes + 8 * i, 8);
    const uint64_t *given = (const void *)lent_put(&lent_offsets, (const uint8_t *)offsets, 8 * rank, LENT_HIGH);
    struct cellumaq_answer a = by->ask_lookup(d, given);
    for (int i = 0; i < CALL_PICKS; i++) {
        uint64_t number = call_lookup(&plain, corner.bytes, corner.length, call_picks[i]);

        CHECK(picked_of(&a, call_picks[i]) == number && by->lookup(d, given, call_picks[i]) == number,
              "%s: number %" PRIu64 " of the struct's lookup isn't %" PRIu64, what, call_picks[i], number);
    }
}

#endif
