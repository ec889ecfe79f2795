/* The example's output on files of the HDF5 library is the kept one. */
#define _DEFAULT_SOURCE
#include <stdlib.h>
#include <string.h>

#include "test.h"

#define EXTENSIBLE "build/example_matcher tests/data/real/edge_ea.bin"
#define FIXED "build/example_matcher tests/data/real/edge_fa.bin"

/* All that a stream has; free it. */
static char *text_of(FILE *stream)
{
    char *text = calloc(1, 65536);

    if (text != NULL && stream != NULL)
        text[fread(text, 1, 65535, stream)] = 0;
    return text;
}

static void example(void)
{
    /* The index, a corner where no chunk begins, an address where there is no index; and both kinds of index. */
    FILE *run = popen(EXTENSIBLE " 447 8 4; " EXTENSIBLE " 447 8 5; " EXTENSIBLE " 448 8 4; " FIXED
                                 " 447 8 4 fixed; " FIXED " 448 8 4 fixed",
                      "r"),
         *kept = fopen("examples/matcher.txt", "r");
    char *printed = text_of(run), *expected = text_of(kept);

    CHECK(run != NULL && kept != NULL && strlen(expected) != 0, "no example, or no kept text");
    CHECK(strcmp(printed, expected) == 0, "the example prints\n%s\nnot\n%s", printed, expected);
    if (run != NULL)
        pclose(run);
    if (kept != NULL)
        fclose(kept);
    free(printed);
    free(expected);
}

int main(void)
{
    test_run("example: the matcher", example);
    return test_summary();
}
