/* cellumaq.h in each language that it is for, without a warning, and the README's example. */
#define _DEFAULT_SOURCE
#include <stdlib.h>

#include "test.h"

#define WARNINGS "-pedantic -Wall -Wextra -Wconversion -Werror -Ibuild"

static const char *compiler, *language, *standard;

/* Whether a command line ends with 0. */
static int runs(const char *format, const char *first, const char *second, const char *third)
{
    char command[1024];

    snprintf(command, sizeof command, format, first, second, third);
    return system(command) == 0;
}

static void dialect(void)
{
    CHECK(runs("rm -f build/dialects; %s -x %s -std=%s " WARNINGS
               " -o build/dialects tests/c/dialects.c -x none build/libcellumaq.a",
               compiler, language, standard),
          "not compiled as %s", standard);
    CHECK(runs("build/dialects", "", "", ""), "other answers as %s", standard);
}

/* The lines between ```c and ```. */
static void readme_example(void)
{
    CHECK(runs("awk '/^```c$/ { inside = 1; next } /^```$/ { inside = 0 } inside' README.md >build/readme.c && grep -q "
               "cellumaq_ build/readme.c",
               "", "", ""),
          "no example");
    CHECK(runs("%s -std=c11 -Wall -Wextra -Werror -Ibuild -c -o build/readme.o build/readme.c", compiler, "", ""),
          "not compiled");
}

static void run_dialect(const char *name, const char *with, const char *in, const char *as)
{
    compiler = with;
    language = in;
    standard = as;
    test_run(name, dialect);
}

int main(void)
{
    const char *cc = getenv("CC") != NULL ? getenv("CC") : "gcc";

    run_dialect("header: C99", cc, "c", "c99");
    run_dialect("header: C11", cc, "c", "c11");
    if (runs("command -v g++ >/dev/null", "", "", ""))
        run_dialect("header: C++11", "g++", "c++", "c++11");
    else
        printf("skipped header: C++11, there is no g++\n");
    compiler = cc;
    test_run("header: the README's example", readme_example);
    return test_summary();
}
