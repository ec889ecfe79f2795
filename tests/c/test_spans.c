/* The span listings against the answers that the Rust gave: tests/data/spans/questions.txt, line by line with
 * answers.txt. A question is `spans O L ADDRESS ROOM HEX`, an answer `ok COUNT address,length ..` or
 * `refused NUMBER FIGURE FIGURE`. */
#include <inttypes.h>
#include <stdint.h>
#include <stdlib.h>
#include <string.h>

#include "test.h"

uint64_t cellumaq_test_spans(const uint8_t *file, size_t file_length, uint64_t offset_size, uint64_t length_size,
                             uint64_t address, uint64_t *addresses, size_t addresses_length, uint64_t *lengths,
                             size_t lengths_length, uint64_t which);

struct span {
    uint64_t address, length;
};

uint64_t cellumaq_test_span_records(const uint8_t *file, size_t file_length, uint64_t offset_size, uint64_t length_size,
                                    uint64_t address, uint64_t *addresses, size_t addresses_length, uint64_t *lengths,
                                    size_t lengths_length, struct span *spans, size_t spans_length, uint64_t which);

enum { LINE = 1 << 16, MOST = 100003, GUARD = 4 };

/* What a list holds before a call, at each place another number. A record's length is its complement. */
#define BEFORE(i) (UINT64_C(0x5a5a000000000000) + (i))

static char question[LINE], answer[LINE];
static uint8_t file[LINE / 2];
static uint64_t addresses[MOST + GUARD], lengths[MOST + GUARD];
static struct span spans[MOST + GUARD];
static uint64_t expected_addresses[LINE], expected_lengths[LINE];

struct call {
    uint64_t offset_size, length_size, address, room;
    size_t file_length;
};

/* numbers[0] to [3]: refusal, figures, count. */
struct expected {
    uint64_t numbers[4];
};

static size_t read_hex(const char *hex)
{
    size_t n = 0;

    for (unsigned byte; sscanf(hex + 2 * n, "%2x", &byte) == 1; n++)
        file[n] = (uint8_t)byte;
    return n;
}

static int read_question(struct call *c)
{
    int hex;

    if (sscanf(question, "spans %" SCNu64 " %" SCNu64 " %" SCNu64 " %" SCNu64 " %n", &c->offset_size, &c->length_size,
               &c->address, &c->room, &hex) != 4)
        return 0;
    c->file_length = question[hex] == '-' ? 0 : read_hex(question + hex);
    return 1;
}

static int read_answer(struct expected *e)
{
    int at, step;

    memset(e, 0, sizeof *e);
    if (sscanf(answer, "refused %" SCNu64 " %" SCNu64 " %" SCNu64, &e->numbers[0], &e->numbers[1], &e->numbers[2]) == 3)
        return 1;
    if (sscanf(answer, "ok %" SCNu64 "%n", &e->numbers[3], &at) != 1 || e->numbers[3] > LINE)
        return 0;
    for (uint64_t i = 0; i < e->numbers[3]; i++, at += step)
        if (sscanf(answer + at, " %" SCNu64 ",%" SCNu64 "%n", &expected_addresses[i], &expected_lengths[i], &step) != 2)
            return 0;
    return 1;
}

/* How many numbers of a list aren't what they are to be: the answer's, and behind them those from before. */
static size_t strays(const uint64_t *list, const uint64_t *wanted, uint64_t count)
{
    size_t n = 0;

    for (size_t i = 0; i < MOST + GUARD; i++)
        n += list[i] != (i < count ? wanted[i] : BEFORE(i));
    return n;
}

/* The same of the records. */
static size_t stray_records(uint64_t count)
{
    size_t n = 0;

    for (size_t i = 0; i < MOST + GUARD; i++)
        n += spans[i].address != (i < count ? expected_addresses[i] : BEFORE(i))
            || spans[i].length != (i < count ? expected_lengths[i] : ~BEFORE(i));
    return n;
}

/* Numbers and records from 0 up to n as they are before a call. */
static void reset(uint64_t n)
{
    for (uint64_t i = 0; i < n; i++) {
        addresses[i] = BEFORE(i);
        lengths[i] = BEFORE(i);
        spans[i] = (struct span){BEFORE(i), ~BEFORE(i)};
    }
}

/* One call with lists of these lengths: its number and both lists. Lists begin as BEFORE; the call's writes are taken
 * back. */
static void check_call(int line, const struct call *c, const struct expected *e, uint64_t first, uint64_t second,
                       uint64_t which)
{
    uint64_t count = e->numbers[3];
    uint64_t number = cellumaq_test_spans(file, c->file_length, c->offset_size, c->length_size, c->address, addresses,
                                          first, lengths, second, which);

    CHECK(number == e->numbers[which < 4 ? which : 0], "line %d, which %" PRIu64 ": %" PRIu64, line, which, number);
    CHECK(strays(addresses, expected_addresses, count) == 0, "line %d, which %" PRIu64 ": addresses", line, which);
    CHECK(strays(lengths, expected_lengths, count) == 0, "line %d, which %" PRIu64 ": lengths", line, which);
    reset(count);
}

/* One call with lists of these lengths: its number and all three lists. */
static void check_records(int line, const struct call *c, const struct expected *e, const uint64_t rooms[3],
                          uint64_t which)
{
    uint64_t count = e->numbers[3];
    uint64_t number = cellumaq_test_span_records(file, c->file_length, c->offset_size, c->length_size, c->address,
                                                 addresses, rooms[0], lengths, rooms[1], spans, rooms[2], which);

    CHECK(number == e->numbers[which < 4 ? which : 0], "records, line %d, which %" PRIu64 ": %" PRIu64, line, which,
          number);
    CHECK(strays(addresses, expected_addresses, count) == 0, "records, line %d, which %" PRIu64 ": addresses", line,
          which);
    CHECK(strays(lengths, expected_lengths, count) == 0, "records, line %d, which %" PRIu64 ": lengths", line, which);
    CHECK(stray_records(count) == 0, "records, line %d, which %" PRIu64 ": records", line, which);
    reset(count);
}

/* A question as records: each number that can be picked; each list the shorter one; and where all are accepted, each list
 * one too short, when 9 names how many are needed. */
static void check_question(int line, const struct call *c, const struct expected *e)
{
    uint64_t count = e->numbers[3];
    struct expected small = {{9, count, 0, 0}};

    for (uint64_t which = 0; which <= 4; which++)
        check_records(line, c, e, (uint64_t[3]){c->room, c->room, c->room}, which);
    for (int shorter = 0; shorter < 3; shorter++) {
        uint64_t rooms[3] = {c->room + 3, c->room + 3, c->room + 3};

        rooms[shorter] = c->room;
        check_records(line, c, e, rooms, 1);
    }
    for (int shorter = 0; shorter < 3 && e->numbers[0] == 0; shorter++) {
        uint64_t rooms[3] = {count, count, count};

        rooms[shorter] = count - 1;
        for (uint64_t which = 0; which <= 1; which++)
            check_records(line, c, &small, rooms, which);
    }
}

static FILE *open_data(const char *name)
{
    FILE *f = fopen(name, "r");

    CHECK(f != NULL, "%s can't be read", name);
    return f;
}

/* Every question with each number that can be picked, and with either list the shorter one; and as records. */
static void answers_of_the_rust(void)
{
    FILE *questions = open_data("tests/data/spans/questions.txt"), *answers = open_data("tests/data/spans/answers.txt");
    struct call c;
    struct expected e;
    int line = 0;

    if (questions == NULL || answers == NULL)
        return;
    reset(MOST + GUARD);
    while (fgets(question, LINE, questions) != NULL) {
        line++;
        int readable = fgets(answer, LINE, answers) != NULL && read_question(&c) && read_answer(&e) &&
                       c.room <= MOST - 3;
        CHECK(readable, "line %d isn't in form", line);
        if (!readable)
            break;
        for (uint64_t which = 0; which <= 4; which++)
            check_call(line, &c, &e, c.room, c.room, which);
        check_call(line, &c, &e, c.room, c.room + 3, 1);
        check_call(line, &c, &e, c.room + 3, c.room, 1);
        check_question(line, &c, &e);
    }
    CHECK(line == 223 && fgets(answer, LINE, answers) == NULL, "%d questions", line);
    fclose(questions);
    fclose(answers);
}

/* Header sizes as given: 16 + 6L + O bytes, and their sum with the address is exact. 31 begins where it is past
 * 2^64 - 1, then 20. */
static void sizes_as_given(void)
{
    static const struct {
        uint64_t offset_size, length_size, address, numbers[3];
    } cases[] = {
        {UINT64_MAX - 16, 0, 0, {20, UINT64_MAX, 0}},
        {UINT64_MAX - 15, 0, 0, {31, 0, UINT64_MAX}},
        {UINT64_MAX - 16, 0, 1, {31, 1, UINT64_MAX}},
        {UINT64_MAX, UINT64_MAX, 0, {31, 0, UINT64_MAX}},
        {0, UINT64_MAX / 6, 0, {31, 0, UINT64_MAX}},
        {3, 3, 0, {20, 37, 0}},
    };

    for (size_t i = 0; i < sizeof cases / sizeof *cases; i++)
        for (uint64_t which = 0; which < 3; which++) {
            uint64_t number = cellumaq_test_spans(NULL, 0, cases[i].offset_size, cases[i].length_size, cases[i].address,
                                                  NULL, 0, NULL, 0, which);

            CHECK(number == cases[i].numbers[which], "case %zu, which %" PRIu64 ": %" PRIu64, i, which, number);
            number = cellumaq_test_span_records(NULL, 0, cases[i].offset_size, cases[i].length_size, cases[i].address,
                                                NULL, 0, NULL, 0, NULL, 0, which);
            CHECK(number == cases[i].numbers[which], "records, case %zu, which %" PRIu64 ": %" PRIu64, i, which,
                  number);
        }
}

int main(void)
{
    test_run("spans: the answers of the Rust", answers_of_the_rust);
    test_run("spans: header sizes as given", sizes_as_given);
    return test_summary();
}
