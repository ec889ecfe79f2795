/* List and lookup in a thread with a small stack between pages that may not be touched, by the calls and by way of a
 * struct: the answers are those of the main thread, and they need no more stack than the header says. */
#define _DEFAULT_SOURCE
#include <pthread.h>

#include "described.h"
#include "list_checks.h"

enum { STACK = 64 * 1024, BY_CALL = 8 * 1024, BY_STRUCT = 10 * 1024, PAINT = 0xa5, RECORDS = 1000 };

/* The list of a call, and the lookup of each listed corner. */
struct answers {
    const struct call *call;
    struct cellumaq_dataset dataset;
    uint64_t count, refusal;
    uint8_t list[RECORDS * (16 + 8 * DATASET_RANK)];
    uint64_t found[RECORDS][3];
};

static void *answer(void *data)
{
    struct answers *a = data;
    const struct call *c = a->call;
    size_t record = cellumaq_record_size(c->rank);

    a->count = call_list(c, a->list, sizeof a->list, CELLUMAQ_COUNT);
    a->refusal = call_list(c, NULL, 0, CELLUMAQ_REFUSAL);
    for (size_t i = 0; i < a->count && i < RECORDS; i++)
        for (int k = 0; k < 3; k++)
            a->found[i][k] = call_lookup(c, a->list + i * record + 16, 8 * c->rank,
                                         CELLUMAQ_FOUND_ADDRESS + (uint64_t)k);
    return NULL;
}

static void *answer_by_struct(void *data)
{
    struct answers *a = data;
    const struct described_functions *by = &described_by[a->call->is_fixed];
    struct cellumaq_answer listed = by->ask_list(&a->dataset, a->list, sizeof a->list);

    a->count = listed.count;
    a->refusal = by->ask_list(&a->dataset, NULL, 0).refusal;
    for (size_t i = 0; i < a->count && i < RECORDS; i++) {
        uint64_t corner[DATASET_RANK];

        for (size_t d = 0; d < a->dataset.rank; d++)
            corner[d] = cellumaq_record_offset(a->list, a->dataset.rank, i, d);
        struct cellumaq_answer found = by->ask_lookup(&a->dataset, corner);
        memcpy(a->found[i], (uint64_t[]){found.address, found.size, found.mask}, sizeof a->found[i]);
    }
    return NULL;
}

static void *nothing(void *data)
{
    return data;
}

/* Runs in a thread on that stack; how many of its bytes were used, the thread's own part with them. */
static size_t used_on(uint8_t *stack, void *(*run)(void *), void *data)
{
    pthread_attr_t attributes;
    pthread_t thread;
    size_t free_bytes = 0;

    memset(stack, PAINT, STACK);
    pthread_attr_init(&attributes);
    if (pthread_attr_setstack(&attributes, stack, STACK) != 0 || pthread_create(&thread, &attributes, run, data) != 0)
        return 0;
    pthread_join(thread, NULL);
    pthread_attr_destroy(&attributes);
    while (free_bytes < STACK && stack[free_bytes] == PAINT)
        free_bytes++;
    return STACK - free_bytes;
}

/* The most that has been needed by the calls, and by way of a struct. */
static size_t deepest[2];

static void check_call(const struct call *c, uint8_t *stack, const char *what)
{
    static void *(*const runs[])(void *) = {answer, answer_by_struct};
    static const size_t needed[] = {BY_CALL, BY_STRUCT};
    static struct answers here, there;

    memset(&here, 0, sizeof here);
    here.call = c;
    here.dataset = described(c);
    answer(&here);
    CHECK(here.count != 0 || here.refusal != 0, "%s: nothing was asked", what);
    for (int i = 0; i < 2; i++) {
        memset(&there, 0, sizeof there);
        there.call = c;
        there.dataset = here.dataset;
        size_t own = used_on(stack, nothing, NULL), used = used_on(stack, runs[i], &there);
        CHECK(own != 0 && used > own, "%s: no thread with a stack of %d bytes", what, STACK);
        CHECK(used - own < needed[i], "%s: %zu bytes of stack", what, used - own);
        if (used - own > deepest[i])
            deepest[i] = used - own;
        CHECK(memcmp(&here, &there, sizeof here) == 0, "%s: other answers on a small stack", what);
    }
}

/* Arrays of all layouts, of rank 1 and of rank 32, and the same with a wrong checksum at the end. */
static void small_stack(void)
{
    static struct entry entries[SLOTS];
    struct lent memory = {0};
    char what[64];

    lent_reserve(&memory, STACK);
    for (int l = 0; l < LAYOUTS; l++) {
        struct dataset s = {.array = {.is_fixed = samples_fixed, .of = layouts[l], .count = SLOTS, .entries = entries},
                            .grid = grids[2]};

        s.array.entry_count = random_entries(entries, slots_of(&layouts[l]), 16);
        dataset_build(&s);
        for (uint64_t rank = 1; rank <= DATASET_RANK; rank += DATASET_RANK - 1) {
            s.grid.rank = rank;
            for (uint64_t d = 1; d < rank; d++)
                s.grid.chunk[d] = s.grid.present[d] = 1;
            struct call c = dataset_call(&s);
            snprintf(what, sizeof what, "layout %d, rank %" PRIu64, l, rank);
            check_call(&c, memory.low, what);
            const struct structure *last = &s.array.structures[s.array.structure_count - 1];
            s.array.bytes[last->start + last->length - 1] ^= 1;
            check_call(&c, memory.low, what);
            s.array.bytes[last->start + last->length - 1] ^= 1;
        }
        array_free(&s.array);
    }
}

int main(void)
{
    run_both("list and lookup need less than 8 KiB of stack, by way of a struct less than 10", small_stack);
    printf("most stack that was needed: %zu bytes, by way of a struct %zu\n", deepest[0], deepest[1]);
    return test_summary();
}
