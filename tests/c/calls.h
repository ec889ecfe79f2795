/* Calls of the library for tests: each question is asked with every `which`, on slices that are lent at several places,
 * and everything that can be told of an answer without knowing it is checked. An answer about a Fixed Array is compared
 * with the model's. */
#ifndef CALLS_H
#define CALLS_H

#include <inttypes.h>

#include "call.h"
#include "cellumaq.h"
#include "fixed_model.h"
#include "lent.h"
#include "test.h"

static inline uint64_t call_list(const struct call *c, uint8_t *list, size_t list_length, uint64_t which)
{
    if (c->is_fixed)
        return cellumaq_fixed_list(c->file.bytes, c->file.length, c->offset_size, c->length_size, c->address,
                                   c->element_bytes, c->rank, c->chunk.bytes, c->chunk.length, c->present.bytes,
                                   c->present.length, c->has_maximum, c->maximum.bytes, c->maximum.length, list,
                                   list_length, which);
    return cellumaq_list(c->file.bytes, c->file.length, c->offset_size, c->length_size, c->address, c->element_bytes,
                         c->order, c->rank, c->chunk.bytes, c->chunk.length, c->present.bytes, c->present.length,
                         c->has_maximum, c->maximum.bytes, c->maximum.length, list, list_length, which);
}

static inline uint64_t call_lookup(const struct call *c, const uint8_t *corner, size_t corner_length, uint64_t which)
{
    if (c->is_fixed)
        return cellumaq_fixed_lookup(c->file.bytes, c->file.length, c->offset_size, c->length_size, c->address,
                                     c->element_bytes, c->rank, c->chunk.bytes, c->chunk.length, c->present.bytes,
                                     c->present.length, c->has_maximum, c->maximum.bytes, c->maximum.length, corner,
                                     corner_length, which);
    return cellumaq_lookup(c->file.bytes, c->file.length, c->offset_size, c->length_size, c->address, c->element_bytes,
                           c->order, c->rank, c->chunk.bytes, c->chunk.length, c->present.bytes, c->present.length,
                           c->has_maximum, c->maximum.bytes, c->maximum.length, corner, corner_length, which);
}

/* Every argument that picks a number, and some that give the refusal again. The count comes first: it says what may be
 * written. */
static const uint64_t call_picks[] = {3, 0, 1, 2, 4, 5, 6, 7, 9, 259, ((uint64_t)1 << 32) + 3, UINT64_MAX};
enum { CALL_PICKS = sizeof call_picks / sizeof *call_picks };

/* The slices of a call as they are lent. The last is the list or the corner. */
enum { CALL_FILE, CALL_CHUNK, CALL_PRESENT, CALL_MAXIMUM, CALL_LAST, CALL_SLICES };
static struct lent call_lent[CALL_SLICES];

static inline const struct slice *call_slice(const struct call *c, int i)
{
    return i == CALL_FILE ? &c->file : i == CALL_CHUNK ? &c->chunk : i == CALL_PRESENT ? &c->present : &c->maximum;
}

/* The same call on slices that are lent, each turn elsewhere. */
static inline struct call call_lend(const struct call *c, int turn)
{
    struct call lent = *c;
    const uint8_t *at[CALL_LAST];

    for (int i = 0; i < CALL_LAST; i++)
        at[i] = lent_put(&call_lent[i], call_slice(c, i)->bytes, call_slice(c, i)->length,
                         (enum lent_where)((turn + i) % 3));
    lent.file.bytes = at[CALL_FILE];
    lent.chunk.bytes = at[CALL_CHUNK];
    lent.present.bytes = at[CALL_PRESENT];
    lent.maximum.bytes = at[CALL_MAXIMUM];
    return lent;
}

static inline int call_slices_stay(const struct call *c)
{
    for (int i = 0; i < CALL_LAST; i++)
        if (!lent_stays(&call_lent[i], call_slice(c, i)->bytes))
            return 0;
    return 1;
}

/* The answer that the picked numbers make, if they fit each other. */
static inline struct cellumaq_answer call_answer(const uint64_t picked[CALL_PICKS], const char *what)
{
    struct cellumaq_answer a = {picked[1], picked[2], picked[3], picked[0], picked[4], picked[5], picked[6]};

    for (int i = 7; i < CALL_PICKS; i++)
        CHECK(picked[i] == a.refusal, "%s: another argument doesn't give the refusal", what);
    CHECK(a.refusal == 0 ? a.first == 0 && a.second == 0 : a.count == 0,
          "%s: figures without a refusal, or records with one", what);
    CHECK(a.count != 0 || (a.address == 0 && a.size == 0 && a.mask == 0), "%s: a record that isn't there", what);
    return a;
}

static inline void check_modelled(struct cellumaq_answer a, struct cellumaq_answer model, const char *what)
{
    CHECK(memcmp(&a, &model, sizeof a) == 0,
          "%s: refusal %" PRIu64 " with %" PRIu64 " and %" PRIu64 ", %" PRIu64 " records, address %" PRIu64
          ", the model has %" PRIu64 " with %" PRIu64 " and %" PRIu64 ", %" PRIu64 ", %" PRIu64,
          what, a.refusal, a.first, a.second, a.count, a.address, model.refusal, model.first, model.second, model.count,
          model.address);
}

static inline void check_modelled_list(const struct call *c, struct cellumaq_answer a, const uint8_t *records,
                                       size_t list_length, const char *what)
{
    uint8_t *modelled = malloc(list_length + 1);
    struct cellumaq_answer model = model_list(c, modelled, list_length);

    check_modelled(a, model, what);
    CHECK(a.count == 0 || a.count != model.count ||
              memcmp(records, modelled, a.count * cellumaq_record_size(c->rank)) == 0,
          "%s: the model has other records", what);
    free(modelled);
}

static inline uint8_t call_fill(size_t i, int turn)
{
    return (uint8_t)(i * 31 + (size_t)turn * 101 + 7);
}

/* Asks for the list. Its records are left in `records`, which has room for the whole list; it may be NULL where the
 * list has no bytes. */
static inline struct cellumaq_answer ask_list(const struct call *c, size_t list_length, uint8_t *records,
                                              const char *what)
{
    size_t record = cellumaq_record_size(c->rank), fit = c->rank <= 32 ? list_length / record : 0, written = 0;
    uint8_t *before = malloc(list_length + 1);
    uint64_t picked[CALL_PICKS];

    for (int turn = 0; turn < CALL_PICKS; turn++) {
        for (size_t i = 0; i < list_length; i++)
            before[i] = call_fill(i, turn);
        uint8_t *list = lent_put(&call_lent[CALL_LAST], before, list_length, (enum lent_where)((turn + CALL_LAST) % 3));
        struct call lent = call_lend(c, turn);

        picked[turn] = call_list(&lent, list, list_length, call_picks[turn]);
        CHECK(call_slices_stay(c), "%s: a slice that is only read was written", what);
        CHECK(lent_marks_stay(&call_lent[CALL_LAST]), "%s: bytes beside the list were written", what);
        if (turn == 0) {
            CHECK(picked[0] <= fit, "%s: more records than fit", what);
            written = picked[0] <= fit ? picked[0] * record : 0;
            if (written != 0)
                memcpy(records, list, written);
        }
        list = call_lent[CALL_LAST].slice;
        CHECK(written == 0 || memcmp(list, records, written) == 0, "%s: other records at another call", what);
        CHECK(memcmp(list + written, before + written, list_length - written) == 0,
              "%s: bytes behind the records were written", what);
    }
    free(before);
    struct cellumaq_answer a = call_answer(picked, what);
    CHECK(a.address == 0 && a.size == 0 && a.mask == 0, "%s: a list has no such number", what);
    if (c->is_fixed)
        check_modelled_list(c, a, records, list_length, what);
    return a;
}

/* Asks for one chunk. */
static inline struct cellumaq_answer ask_lookup(const struct call *c, struct slice corner, const char *what)
{
    uint64_t picked[CALL_PICKS];

    for (int turn = 0; turn < CALL_PICKS; turn++) {
        uint8_t *corner_at = lent_put(&call_lent[CALL_LAST], corner.bytes, corner.length,
                                      (enum lent_where)((turn + CALL_LAST) % 3));
        struct call lent = call_lend(c, turn);

        picked[turn] = call_lookup(&lent, corner_at, corner.length, call_picks[turn]);
        CHECK(call_slices_stay(c) && lent_stays(&call_lent[CALL_LAST], corner.bytes), "%s: a slice was written", what);
    }
    struct cellumaq_answer a = call_answer(picked, what);
    CHECK(a.count <= 1, "%s: %" PRIu64 " records of one corner", what, a.count);
    if (c->is_fixed)
        check_modelled(a, model_lookup(c, corner), what);
    return a;
}

static inline void check_refused(struct cellumaq_answer a, uint64_t refusal, uint64_t first, uint64_t second,
                                 const char *what)
{
    CHECK(a.refusal == refusal && a.first == first && a.second == second,
          "%s: refusal %" PRIu64 " with %" PRIu64 " and %" PRIu64 ", not %" PRIu64 " with %" PRIu64 " and %" PRIu64,
          what, a.refusal, a.first, a.second, refusal, first, second);
}

/* The record of a corner in a list, or NULL. */
static inline const uint8_t *record_of(const uint8_t *list, size_t count, size_t rank, const uint8_t *corner)
{
    for (size_t i = 0; i < count; i++)
        if (memcmp(list + i * cellumaq_record_size(rank) + 16, corner, 8 * rank) == 0)
            return list + i * cellumaq_record_size(rank);
    return NULL;
}

#endif
