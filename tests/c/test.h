/* Tests that are made of checks. A program of tests runs each by test_run() and ends with test_summary(); the test run
 * reads and adds up the lines `ok` and `FAILED`. */
#ifndef TEST_H
#define TEST_H

#include <stdio.h>

static unsigned long test_checks, test_failures, test_failed;

/* One check of the test that runs; tells a failed one. */
#define CHECK(holds, ...)                          \
    do {                                           \
        test_checks++;                             \
        if (!(holds)) {                            \
            test_failures++;                       \
            printf("%s:%d: ", __FILE__, __LINE__); \
            printf(__VA_ARGS__);                   \
            printf("\n");                          \
        }                                          \
    } while (0)

/* A test without a check has failed. */
static inline void test_run(const char *name, void (*test)(void))
{
    test_checks = test_failures = 0;
    test();
    if (test_checks != 0 && test_failures == 0) {
        printf("ok %s (%lu checks)\n", name, test_checks);
    } else {
        test_failed++;
        printf("FAILED %s (%lu of %lu checks)\n", name, test_failures, test_checks);
    }
    fflush(stdout);
}

static inline int test_summary(void)
{
    return test_failed != 0;
}

#endif
