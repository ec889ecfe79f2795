/* Random inputs for the C functions, without end or for some time: fuzz SEED SECONDS, or fuzz SEED SECONDS ROUND for
 * that round alone. A failure is told with its seed and round. */
#define _DEFAULT_SOURCE
#include <sanitizer/common_interface_defs.h>
#include <signal.h>
#include <unistd.h>

#include "round.h"

/* A round that takes longer hangs. */
enum { ROUND_SECONDS = 60, REPORT_SECONDS = 300 };

static uint64_t seed;

static void tell_round(void)
{
    fprintf(stderr, "seed %" PRIu64 ", round %" PRIu64 "\n", seed, tally.rounds);
}

static void hangs(int signal)
{
    (void)signal;
    fprintf(stderr, "a round takes more than %d seconds\n", ROUND_SECONDS);
    tell_round();
    abort();
}

static void print_refusals(const char *name, const uint64_t *refused)
{
    printf("  %s refused", name);
    for (int i = 1; i < ROUND_REFUSALS; i++)
        if (refused[i] != 0)
            printf("  %d: %" PRIu64, i, refused[i]);
    printf("\n");
}

static void report(uint64_t rounds, double seconds)
{
    printf("seed %" PRIu64 ": %" PRIu64 " rounds in %.0f s; calls: %" PRIu64 " checksum, %" PRIu64 " list, %" PRIu64
           " lookup\n",
           seed, rounds, seconds, tally.checksums, tally.lists, tally.lookups);
    printf("  lists accepted %" PRIu64 " with %" PRIu64 " records, only counted %" PRIu64 "; lookups found %" PRIu64
           ", absent %" PRIu64 "\n",
           tally.accepted, tally.records, tally.too_many, tally.found, tally.absent);
    printf("  asked by way of a struct too %" PRIu64 "; Fixed Arrays %" PRIu64 "\n", tally.described, tally.fixed);
    print_refusals("lists", tally.refused[0]);
    print_refusals("lookups", tally.lookup_refused[0]);
    print_refusals("lists of Fixed Arrays", tally.refused[1]);
    print_refusals("lookups in Fixed Arrays", tally.lookup_refused[1]);
    printf("  slowest list %.6f s in round %" PRIu64 "; %lu checks\n", tally.slowest, tally.slowest_round, test_checks);
    fflush(stdout);
}

/* One round; a failed check ends the program. */
static void run_round(uint64_t round)
{
    alarm(ROUND_SECONDS);
    fuzz_round(seed, round);
    if (test_failures != 0) {
        fflush(stdout);
        tell_round();
        exit(1);
    }
}

int main(int argc, char **argv)
{
    if (argc != 3 && argc != 4) {
        fprintf(stderr, "usage: fuzz SEED SECONDS [ROUND]\n");
        return 1;
    }
    uint64_t round = 0;
    double seconds = strtod(argv[2], NULL), begin = seconds_of(CLOCK_MONOTONIC), told = begin, now = begin;

    seed = strtoull(argv[1], NULL, 10);
    signal(SIGALRM, hangs);
    __sanitizer_set_death_callback(tell_round);
    if (argc == 4) {
        run_round(strtoull(argv[3], NULL, 10));
        report(1, seconds_of(CLOCK_MONOTONIC) - begin);
        return 0;
    }
    for (; now - begin < seconds; round++, now = seconds_of(CLOCK_MONOTONIC)) {
        run_round(round);
        if (now - told >= REPORT_SECONDS) {
            report(round + 1, now - begin);
            told = now;
        }
    }
    report(round, now - begin);
    return 0;
}
