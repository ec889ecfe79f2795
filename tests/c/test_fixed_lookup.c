/* cellumaq_fixed_lookup: lists of questions and answers, every corner of real files and of arrays that are built here,
 * damage on the way and elsewhere. Every answer that is asked for whole is compared with the model's too (calls.h).
 *
 * test_fixed_lookup QUESTIONS ANSWERS replays those two lists alone. */
#define _DEFAULT_SOURCE
#include "lookup_checks.h"
#include "replay.h"

static void replay_lookups(void)
{
    replay("flookup", check_lookup_line);
}

static void real_corners(void)
{
    replay("flist", check_agreement);
}

/* Every entry of an array with pages of 1 to 128, most of them clear, and some chunks behind the entries. */
static void far_entries(void)
{
    static const struct entry entries[] = {{0, 4096, 7, 0}, {63, 4104, 7, 1}, {64, 0, 7, 2}, {1023, 4112, 7, 3},
                                           {1999, 4120, 7, 4}};
    char what[64];

    for (uint8_t exponent = 0; exponent <= 7; exponent++)
        for (int l = 0; l < 2; l++) {
            struct dataset s = {.array = {.is_fixed = 1, .of = layouts[l], .count = 2000, .entries = entries,
                                          .entry_count = sizeof entries / sizeof *entries},
                                .grid = grids[2]};

            s.array.of.page_exponent = exponent;
            dataset_build(&s);
            snprintf(what, sizeof what, "pages of 2^%u, layout %d", exponent, l);
            check_slots(&s, 2100, what);
            array_free(&s.array);
        }
}

/* A chunk without an entry isn't there, whatever the data block is: its address leads nowhere. */
static void chunks_behind_the_entries(void)
{
    struct dataset s = worked(filtered, grids[2]);
    struct call c = dataset_call(&s);
    uint8_t corner[8] = {0};

    array_put(s.array.bytes + s.array.header + 16, UINT64_MAX - 1, 8);
    array_seal(&s.array, s.array.header, s.array.structures[0].length);
    for (uint64_t slot = 0; slot < 6; slot++) {
        cellumaq_put_length(corner, 0, slot);
        if (slot < 3)
            check_lookup_refusal(&c, (struct slice){corner, 8}, CELLUMAQ_REFUSED_PAST_END, UINT64_MAX, s.array.length,
                                 "an entry");
        else
            check_lookup_refusal(&c, (struct slice){corner, 8}, CELLUMAQ_ACCEPTED, 0, 0, "no entry");
    }
    array_free(&s.array);
}

int main(int argc, char **argv)
{
    samples_fixed = 1;
    questions = argc == 3 ? argv[1] : "tests/data/fixed/questions.txt";
    answers = argc == 3 ? argv[2] : "tests/data/fixed/answers.txt";
    test_run(argc == 3 ? "fixed lookup: the given questions" : "fixed lookup: the list of answers", replay_lookups);
    if (argc == 3)
        return test_summary();
    questions = "tests/data/real/fixed-questions.txt";
    answers = "tests/data/real/fixed-answers.txt";
    test_run("fixed lookup: files of the HDF5 library", replay_lookups);
    test_run("fixed lookup: agreement with the list in files of the HDF5 library", real_corners);
    test_run("fixed lookup: arrays of all widths and geometries", built_slots);
    test_run("fixed lookup: entries far from each other", far_entries);
    test_run("fixed lookup: chunks behind the entries", chunks_behind_the_entries);
    test_run("fixed lookup: damage on the way and elsewhere", damaged_ways);
    test_run("fixed lookup: cut files", cut_ways);
    return test_summary();
}
