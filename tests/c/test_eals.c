/* The program eals: what it prints of a line and a file. */
#include "array.h"
#include "test.h"

enum { MOST_FILE = 60000, MOST_LINE = 4095 };

/* The array of the worked example: count 3, 4096 in the first inline element, 8192 in the first element of the first
 * data block. */
static const struct array_parameters plain = {8, 8, 0, 8, 32, 2, 16, 4, 10};
static const struct entry worked_entries[] = {{0, 4096, 0, 0}, {2, 8192, 0, 0}};

static struct array worked(void)
{
    struct array a = {.of = plain, .count = 3, .entries = worked_entries, .entry_count = 2};

    array_build(&a);
    return a;
}

/* What eals prints of these bytes; the next call overwrites it. */
static const char *eals(const char *line, size_t line_length, const uint8_t *file, size_t length)
{
    static char printed[400000];
    FILE *in = fopen("build/eals.in", "wb");

    if (in == NULL || fwrite(line, 1, line_length, in) != line_length || fwrite(file, 1, length, in) != length ||
        fclose(in) != 0)
        return "(no input)";
    if (system("build/eals <build/eals.in >build/eals.out") != 0)
        return "(no run)";
    FILE *out = fopen("build/eals.out", "rb");
    if (out == NULL)
        return "(no output)";
    printed[fread(printed, 1, sizeof printed - 1, out)] = 0;
    fclose(out);
    return printed;
}

static void prints(const char *line, const uint8_t *file, size_t length, const char *expected)
{
    const char *printed = eals(line, strlen(line), file, length);

    CHECK(strcmp(printed, expected) == 0, "%.60s: printed %.80s, not %.80s", line, printed, expected);
}

/* The same of the worked array. */
static void worked_prints(const char *line, const char *expected)
{
    struct array a = worked();

    prints(line, a.bytes, a.length, expected);
    array_free(&a);
}

static void records(void)
{
    worked_prints("8 8 0 4 U 1 10 25 *\n", "4096 40 0 0\n8192 40 0 20\nrecords 2\n");
    worked_prints("8 8 0 4 U 1 10 25 18446744073709551615\n", "4096 40 0 0\n8192 40 0 20\nrecords 2\n");
    worked_prints("008 8 0 04 U 1 10 25 *\n", "4096 40 0 0\n8192 40 0 20\nrecords 2\n");
    worked_prints("8 8 0 4 U 1 10 20 *\n", "4096 40 0 0\nrecords 1\n");
    worked_prints("8 8 0 4 U 0\n", "4096 4 0\n8192 4 0\nrecords 2\n");
    worked_prints("8 8 0 4 R 1 10 25 *\n", "4096 40 0 0\n8192 40 0 20\nrecords 2\n");
    worked_prints("8 8 0 1 U 2 10 5 20 25 20 *\n", "4096 50 0 0 0\n8192 50 0 0 5\nrecords 2\n");
    worked_prints("8 8 0 1 R 2 10 5 20 25 20 25\n", "4096 50 0 0 0\n8192 50 0 0 10\nrecords 2\n");
}

static void refusals(void)
{
    struct array a = worked();

    worked_prints("3 3 0 4 U 1 10 25 *\n", "refused 2 3 0\n");
    worked_prints("255 8 0 4 U 1 10 25 *\n", "refused 1 255 0\n");
    worked_prints("8 8 0 4 U 1 0 25 *\n", "refused 6 0 0\n");
    worked_prints("8 8 0 4 R 2 10 10 25 25 25 *\n", "refused 7 0 0\n");
    worked_prints("8 8 1 4 U 1 10 25 *\n", "refused 21 0 0\n");
    worked_prints("8 8 18446744073709551615 4 U 1 10 25 *\n", "refused 20 18446744073709551615 504\n");
    worked_prints("8 8 0 4294967296 U 1 10 25 *\n", "refused 30 42949672960 0\n");
    prints("8 8 0 4 U 1 10 25 *\n", a.bytes, 71, "refused 20 72 71\n");
    prints("8 8 0 4 U 1 10 25 *\n", a.bytes, 0, "refused 20 72 0\n");
    a.bytes[0] = 'X';
    prints("8 8 0 4 U 1 10 25 *\n", a.bytes, a.length, "refused 21 0 0\n");
    a.bytes[0] = 'E';
    a.bytes[71] ^= 0x80;
    uint32_t computed = cellumaq_checksum(a.bytes, 68);
    char expected[60];
    sprintf(expected, "refused 26 %lu %lu\n", (unsigned long)(computed ^ 0x80000000), (unsigned long)computed);
    prints("8 8 0 4 U 1 10 25 *\n", a.bytes, a.length, expected);
    array_free(&a);
}

/* A line with rank and three times rank lengths: the chunk's and the present ones are numbers, the maximum ones too. */
static void rank_line(char *line, unsigned rank)
{
    line += sprintf(line, "8 8 0 4 U %u", rank);
    for (unsigned i = 0; i < 3 * rank; i++)
        line += sprintf(line, " 1");
    sprintf(line, "\n");
}

static void ranks(void)
{
    char line[MOST_LINE + 2];

    rank_line(line, 32);
    worked_prints(line, "4096 4 0 0 0 0 0 0 0 0 0 0 0 0 0 0 0 0 0 0 0 0 0 0 0 0 0 0 0 0 0 0 0 0 0\nrecords 1\n");
    rank_line(line, 33);
    worked_prints(line, "refused 3 0 0\n");
    rank_line(line, 600);
    worked_prints(line, "refused 3 0 0\n");
    worked_prints("8 8 0 4 U 18446744073709551615 10 25 *\n", "unreadable\n");
}

static void unreadable(void)
{
    static const char *const lines[] = {
        "",
        "\n",
        " \n",
        "8\n",
        "8 8 0 4 U 1 10 25 *",
        "8 8 0 4 U 1 10 25\n",
        "8 8 0 4 U 1 10 25 * \n",
        " 8 8 0 4 U 1 10 25 *\n",
        "8  8 0 4 U 1 10 25 *\n",
        "8\t8 0 4 U 1 10 25 *\n",
        "8 8 0 4 U 1 10 25 * 7\n",
        "8 8 0 4 U 1 10 25 *\r\n",
        "256 8 0 4 U 1 10 25 *\n",
        "8 256 0 4 U 1 10 25 *\n",
        "8 8 18446744073709551616 4 U 1 10 25 *\n",
        "8 8 0 99999999999999999999 U 1 10 25 *\n",
        "8 8 0 4 U 1 10 25 18446744073709551616\n",
        "8 8 0 4 U 1 10 * *\n",
        "8 8 0 4 U 1 * 25 *\n",
        "8 8 0 4 U 1 10 25 **\n",
        "8 8 0 4 u 1 10 25 *\n",
        "8 8 0 4 UR 1 10 25 *\n",
        "8 8 0 4 0 1 10 25 *\n",
        "8 8 -1 4 U 1 10 25 *\n",
        "8 8 +1 4 U 1 10 25 *\n",
        "8 8 0x0 4 U 1 10 25 *\n",
        "8 8 0 4 U * 10 25 *\n",
        "8 8 0 4 U 0 \n",
        "8 8 0 4 U 0 1\n",
        "8 8 0 4 U\n",
        "8 8 0 4 U 2 10 25 *\n",
    };

    for (size_t i = 0; i < sizeof lines / sizeof *lines; i++)
        worked_prints(lines[i], "unreadable\n");
}

/* The longest line and the longest file, and one byte more. */
static void limits(void)
{
    static uint8_t file[70000];
    static char line[5000];
    struct array a = worked();
    const char *expected = "4096 40 0 0\n8192 40 0 20\nrecords 2\n";

    memcpy(file, a.bytes, a.length);
    array_free(&a);
    prints("8 8 0 4 U 1 10 25 *\n", file, MOST_FILE, expected);
    prints("8 8 0 4 U 1 10 25 *\n", file, MOST_FILE + 1, "unreadable\n");
    prints("8 8 0 4 U 1 10 25 *\n", file, sizeof file, "unreadable\n");
    for (size_t length = MOST_LINE; length <= MOST_LINE + 1; length++) {
        const char *rest = "8 8 0 4 U 1 10 25 *\n";
        memset(line, '0', length - (strlen(rest) - 1));
        strcpy(line + length - (strlen(rest) - 1), rest);
        prints(line, file, MOST_FILE, length == MOST_LINE ? expected : "unreadable\n");
    }
    memset(line, '8', sizeof line - 1);
    line[sizeof line - 1] = 0;
    prints(line, file, sizeof file, "unreadable\n");
}

/* The list has 65,536 bytes: 2,730 records of rank 1, 4,096 of rank 0. */
static void full_lists(void)
{
    static struct entry entries[2800];
    struct array a = {.of = plain, .count = 2730, .entries = entries, .entry_count = 2730};

    for (uint64_t slot = 0; slot < 2800; slot++)
        entries[slot] = (struct entry){slot, UINT64_MAX - 1 - slot, 0, 0};
    array_build(&a);
    const char *printed = eals("8 8 0 1 U 1 1 5000 *\n", 21, a.bytes, a.length);
    CHECK(strncmp(printed, "18446744073709551614 1 0 0\n18446744073709551613 1 0 1\n", 54) == 0,
          "the first records: %.60s", printed);
    const char *end = strstr(printed, "records");
    CHECK(end != NULL && strcmp(end, "records 2730\n") == 0, "the end of a full list");
    array_free(&a);
    a = (struct array){.of = plain, .count = 2731, .entries = entries, .entry_count = 2731};
    array_build(&a);
    prints("8 8 0 1 U 1 1 5000 *\n", a.bytes, a.length, "refused 9 2731 0\n");
    array_free(&a);
}

int main(void)
{
    test_run("eals: records", records);
    test_run("eals: refusals", refusals);
    test_run("eals: ranks", ranks);
    test_run("eals: unreadable lines", unreadable);
    test_run("eals: longest line and file", limits);
    test_run("eals: full lists", full_lists);
    return test_summary();
}
