/* One round: a random input, what can be told of its answers without knowing them, and where it is sound the list
 * itself. */
#ifndef ROUND_H
#define ROUND_H

#include <time.h>

#include "calls.h"
#include "changes.h"
#include "described.h"
#include "lookup3.h"

/* A list with more records is only counted. */
enum { ROUND_RECORDS = 20000, ROUND_REFUSALS = 40 };

/* What the rounds have met. */
struct tally {
    uint64_t rounds, checksums, lists, lookups; /* rounds, and calls of each kind */
    uint64_t accepted, records;                 /* inputs whose list was accepted, and their records */
    uint64_t too_many;                          /* lists that were only counted */
    uint64_t found, absent;                     /* of lookups */
    uint64_t described;                         /* inputs that were asked by way of a struct too */
    uint64_t fixed;                             /* inputs with a Fixed Array */
    uint64_t refused[2][ROUND_REFUSALS];        /* inputs whose list was refused, by number; those with a Fixed Array */
    uint64_t lookup_refused[2][ROUND_REFUSALS];
    double slowest; /* the processor's seconds for the slowest list, and its round */
    uint64_t slowest_round;
};

static struct tally tally;

static inline double seconds_of(clockid_t clock)
{
    struct timespec t;

    clock_gettime(clock, &t);
    return (double)t.tv_sec + 1e-9 * (double)t.tv_nsec;
}

static inline void count_refusal(uint64_t *refused, uint64_t refusal, const char *what)
{
    CHECK(refusal < ROUND_REFUSALS, "%s: refusal %" PRIu64, what, refusal);
    if (refusal < ROUND_REFUSALS)
        refused[refusal]++;
}

static inline struct cellumaq_answer counted_lookup(const struct call *c, struct slice corner, const char *what)
{
    struct cellumaq_answer a = ask_lookup(c, corner, what);

    tally.lookups += CALL_PICKS;
    tally.found += a.refusal == 0 && a.count == 1;
    tally.absent += a.refusal == 0 && a.count == 0;
    count_refusal(tally.lookup_refused[c->is_fixed], a.refusal, what);
    return a;
}

/* The checksum of some bytes of the file, between pages that may not be touched. */
static inline void round_checksum(struct slice file)
{
    size_t start = random_below((uint32_t)file.length + 1), length = random_below((uint32_t)(file.length - start) + 1);
    struct slice part = {file.length == 0 ? NULL : file.bytes + start, length};
    uint8_t *lent = lent_put(&call_lent[CALL_FILE], part.bytes, length, (enum lent_where)random_below(3));

    CHECK(cellumaq_checksum(lent, length) == lookup3_reference(part.bytes, length, 0),
          "another checksum than the reference's");
    CHECK(lent_stays(&call_lent[CALL_FILE], part.bytes), "the checksum wrote");
    tally.checksums++;
}

/* Order of records by their corners; the rank is that of the call. */
static size_t compared_rank;

static inline int compare_corners(const void *a, const void *b)
{
    return memcmp((const uint8_t *)a + 16, (const uint8_t *)b + 16, 8 * compared_rank);
}

/* Every corner is one of the present shape, and no two are the same. */
static inline void check_corners(const struct call *c, const uint8_t *list, size_t count)
{
    size_t record = cellumaq_record_size(c->rank);

    for (size_t i = 0; i < count; i++)
        for (size_t d = 0; d < c->rank; d++) {
            uint64_t offset = cellumaq_record_offset(list, c->rank, i, d),
                     chunk = cellumaq_get(c->chunk.bytes + 8 * d, 8);

            CHECK(chunk != 0 && offset % chunk == 0, "record %zu: unaligned", i);
            CHECK(offset < cellumaq_get(c->present.bytes + 8 * d, 8), "record %zu: not in the present shape", i);
        }
    if (c->rank == 0)
        return;
    uint8_t *sorted = malloc(count * record + 1);
    memcpy(sorted, list, count * record);
    compared_rank = c->rank;
    qsort(sorted, count, record, compare_corners);
    for (size_t i = 1; i < count; i++)
        CHECK(compare_corners(sorted + (i - 1) * record, sorted + i * record) != 0, "two records of one corner");
    free(sorted);
}

/* The lookup of a corner of the present shape gives the list's record, or none where the list has none. */
static inline void check_lookup(const struct call *c, const uint8_t *list, size_t count, const uint8_t *corner)
{
    const uint8_t *record = record_of(list, count, c->rank, corner);
    struct cellumaq_answer a = counted_lookup(c, (struct slice){corner, 8 * c->rank}, "the lookup of an accepted list");

    CHECK(a.refusal == 0, "the list is accepted, the lookup refused with %" PRIu64, a.refusal);
    CHECK(a.count == (record != NULL), "the list has %d record of a corner, the lookup %" PRIu64, record != NULL,
          a.count);
    if (record != NULL)
        CHECK(a.address == cellumaq_get(record, 8) && a.size == cellumaq_get(record + 8, 4) &&
                  a.mask == cellumaq_get(record + 12, 4),
              "the lookup gives another record than the list");
}

/* Some listed corners and some others of the present shape. At rank 0 the list has records without corners. */
static inline void check_lookups(const struct call *c, const uint8_t *list, size_t count)
{
    uint8_t corner[8 * DATASET_RANK];

    if (c->rank == 0)
        return;
    for (int i = 0; i < 6 && count != 0; i++) {
        size_t chosen = i == 0 ? 0 : i == 1 ? count - 1 : random_below((uint32_t)count);

        check_lookup(c, list, count, list + chosen * cellumaq_record_size(c->rank) + 16);
    }
    for (int i = 0; i < 6; i++) {
        for (size_t d = 0; d < c->rank; d++) {
            uint64_t chunk = cellumaq_get(c->chunk.bytes + 8 * d, 8),
                     present = cellumaq_get(c->present.bytes + 8 * d, 8);

            if (present == 0)
                return;
            uint64_t last = (present - 1) / chunk,
                     index = one_in(2) && last < UINT32_MAX ? random_below((uint32_t)last + 1) : random_number();
            cellumaq_put_length(corner, d, (index <= last ? index : last) * chunk);
        }
        check_lookup(c, list, count, corner);
    }
}

/* What the header, the numbers and the shapes are refused for comes before the corner: list and lookup have the
 * same. */
static inline int is_shared(uint64_t refusal)
{
    return (refusal >= CELLUMAQ_REFUSED_OFFSET_SIZE && refusal <= CELLUMAQ_REFUSED_TOO_MANY_CHUNKS) ||
           refusal == CELLUMAQ_REFUSED_HEADER_SIGNATURE || refusal == CELLUMAQ_REFUSED_FIXED_HEADER_SIGNATURE ||
           refusal == CELLUMAQ_REFUSED_HEADER_VERSION;
}

/* The list of a sound input is known. */
static inline void check_sound(const struct input *in, const struct cellumaq_answer *a, const uint8_t *list)
{
    size_t count, record = cellumaq_record_size(in->call.rank);
    uint8_t *expected = dataset_list(&in->dataset, &count);

    CHECK(a->refusal == 0 && a->count == count, "a sound array: refusal %" PRIu64 ", %" PRIu64 " records, not %zu",
          a->refusal, a->count, count);
    CHECK(a->count != count || count == 0 || memcmp(list, expected, count * record) == 0,
          "a sound array: other records");
    free(expected);
}

/* How many records the list has, from a call without a list. It is timed. */
static inline uint64_t needed_records(const struct call *c)
{
    double begin = seconds_of(CLOCK_PROCESS_CPUTIME_ID);
    uint64_t refusal = call_list(c, NULL, 0, CELLUMAQ_REFUSAL);
    double taken = seconds_of(CLOCK_PROCESS_CPUTIME_ID) - begin;

    if (taken > tally.slowest) {
        tally.slowest = taken;
        tally.slowest_round = tally.rounds;
    }
    tally.lists++;
    return refusal == CELLUMAQ_REFUSED_LIST_TOO_SMALL ? call_list(c, NULL, 0, CELLUMAQ_FIRST_FIGURE) : 0;
}

static inline void round_list(const struct input *in)
{
    const struct call *c = &in->call;
    uint64_t needed = needed_records(c);
    size_t record = cellumaq_record_size(c->rank <= 32 ? c->rank : 0),
           room = (needed <= ROUND_RECORDS ? needed : 0) * record;
    size_t length = room + random_below(one_in(8) ? 2000 : (uint32_t)record),
           less = needed == 0 ? 0 : random_below((uint32_t)room);
    uint8_t *list = malloc(length + 1);
    struct cellumaq_answer a = ask_list(c, length, list, "the list"),
                           of_corner = counted_lookup(c, in->corner, "a corner");

    tally.lists += CALL_PICKS;
    if (needed > ROUND_RECORDS) {
        tally.too_many++;
        CHECK(a.refusal == CELLUMAQ_REFUSED_LIST_TOO_SMALL && a.first == needed,
              "refusal %" PRIu64 " of too small a list", a.refusal);
    } else {
        count_refusal(tally.refused[c->is_fixed], a.refusal, "the list");
        CHECK(a.refusal == 0 ? a.count == needed : needed == 0,
              "%" PRIu64 " records were needed, the list has %" PRIu64, needed, a.count);
    }
    if (is_shared(a.refusal))
        CHECK(of_corner.refusal == a.refusal && of_corner.first == a.first && of_corner.second == a.second,
              "the lookup has another refusal");
    if (a.refusal == 0) {
        tally.accepted++;
        tally.records += a.count;
        check_corners(c, list, a.count);
        check_lookups(c, list, a.count);
    }
    if (in->sound)
        check_sound(in, &a, list);
    if (is_described(c) && needed <= ROUND_RECORDS && one_in(4)) {
        check_described_list(c, length, "the list");
        if (in->corner.length == 8 * c->rank || c->rank > CELLUMAQ_RANK_MOST)
            check_described_lookup(c, in->corner, "a corner");
        tally.described++;
    }
    if (needed != 0 && one_in(4)) {
        struct cellumaq_answer refused = ask_list(c, less, list, "a list without enough room");

        tally.lists += CALL_PICKS;
        CHECK(refused.refusal == CELLUMAQ_REFUSED_LIST_TOO_SMALL && refused.first == needed && refused.second == 0,
              "refusal %" PRIu64, refused.refusal);
    }
    free(list);
}

/* Rounds of a seed differ; a round of a seed is always the same. */
static inline void fuzz_round(uint64_t seed, uint64_t round)
{
    static struct input in;

    random_state = (uint32_t)((seed * 0x9e3779b97f4a7c15 + round + 1) * 0xd1342543de82ef95 >> 32);
    tally.rounds = round;
    random_input(&in);
    tally.fixed += (uint64_t)in.call.is_fixed;
    random_changes(&in);
    round_checksum(in.call.file);
    round_list(&in);
    array_free(&in.dataset.array);
}

#endif
