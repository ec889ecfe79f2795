/* cellumaq_lookup: lists of questions and answers, every corner of real files and of arrays that are built here, damage
 * on the way and elsewhere.
 *
 * test_lookup QUESTIONS ANSWERS replays those two lists alone. */
#define _DEFAULT_SOURCE
#include "lookup_checks.h"
#include "replay.h"

static void replay_lookups(void)
{
    replay("lookup", check_lookup_line);
}

static void real_corners(void)
{
    replay("list", check_agreement);
}

/* Slots of all super blocks of a large array, most of which aren't there. */
static void far_elements(void)
{
    static const struct entry entries[] = {
        {3, 4096, 7, 0},   {243, 4112, 7, 2},    {244, 4120, 7, 3},    {65523, 4136, 7, 5},
        {131059, 2, 7, 6}, {131060, 4144, 7, 7}, {132084, 4160, 7, 9}, {262131, 4176, 7, UINT32_MAX}};
    static const uint64_t others[] = {2,      4,      242,    245,    8180,    65522,   65524,   131058, 131061,
                                      132083, 132085, 133108, 262132, 1048563, 1999999, 2000001, 4000000};
    uint8_t corner[8];

    for (int l = 0; l < 2; l++) {
        struct dataset s = {.array = {.of = layouts[l], .count = 2000000, .entries = entries,
                                      .entry_count = sizeof entries / sizeof *entries}};

        s.grid = grids[2];
        s.grid.present[0] = 5000000;
        array_build(&s.array);
        struct call c = dataset_call(&s);
        size_t count;
        uint8_t *list = dataset_list(&s, &count);
        for (size_t i = 0; i < count; i++)
            check_found(&c, list + 24 * i + 16, list + 24 * i, "a far element");
        for (size_t i = 0; i < sizeof others / sizeof *others; i++) {
            cellumaq_put_length(corner, 0, others[i]);
            check_found(&c, corner, NULL, "beside a far element");
        }
        free(list);
        array_free(&s.array);
    }
}

int main(int argc, char **argv)
{
    questions = argc == 3 ? argv[1] : "tests/data/lookup/questions.txt";
    answers = argc == 3 ? argv[2] : "tests/data/lookup/answers.txt";
    test_run(argc == 3 ? "lookup: the given questions" : "lookup: the list of answers", replay_lookups);
    if (argc == 3)
        return test_summary();
    questions = "tests/data/real/questions.txt";
    answers = "tests/data/real/answers.txt";
    test_run("lookup: files of the HDF5 library", replay_lookups);
    test_run("lookup: agreement with the list in files of the HDF5 library", real_corners);
    test_run("lookup: arrays of all widths and geometries", built_slots);
    test_run("lookup: elements far from each other", far_elements);
    test_run("lookup: damage on the way and elsewhere", damaged_ways);
    test_run("lookup: cut files", cut_ways);
    return test_summary();
}
