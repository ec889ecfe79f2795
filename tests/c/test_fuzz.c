/* A fixed number of random inputs; `make fuzz` tries more. */
#define _DEFAULT_SOURCE
#include "../fuzz/round.h"

enum { SEED = 7, ROUNDS = 6000 };

static void random_inputs(void)
{
    static const int fixed[] = {20, 22, 26, 27, 28, 29, 30, 34, 35};

    for (uint64_t round = 0; round < ROUNDS && test_failures == 0; round++) {
        fuzz_round(SEED, round);
        if (test_failures != 0)
            printf("seed %d, round %" PRIu64 "\n", SEED, round);
    }
    CHECK(tally.described > ROUNDS / 8, "few inputs were asked by way of a struct");
    CHECK(tally.accepted > ROUNDS / 4 && tally.found > ROUNDS && tally.absent > ROUNDS, "few inputs were accepted");
    for (int i = CELLUMAQ_REFUSED_PAST_END; i <= CELLUMAQ_REFUSED_CHUNK_SIZE; i++)
        CHECK(tally.refused[0][i] != 0, "no list was refused with %d", i);
    for (size_t i = 0; i < sizeof fixed / sizeof *fixed; i++)
        CHECK(tally.refused[1][fixed[i]] != 0, "no list of a Fixed Array was refused with %d", fixed[i]);
}

int main(void)
{
    test_run("random inputs of checksum, list and lookup", random_inputs);
    return test_summary();
}
