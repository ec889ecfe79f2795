/* The archive has the functions of cellumaq.h and no other name, and needs only the C library's memory functions. */
#define _DEFAULT_SOURCE
#include <string.h>

#include "test.h"

static const char *const functions[] = {"cellumaq_checksum", "cellumaq_list", "cellumaq_lookup", "cellumaq_fixed_list",
                                        "cellumaq_fixed_lookup"};
static const char *const needed[] = {"memcpy", "memmove", "memset", "memcmp"};
enum { FUNCTIONS = sizeof functions / sizeof *functions, NEEDED = sizeof needed / sizeof *needed };

static int is_one_of(const char *name, const char *const *names, int n)
{
    for (int i = 0; i < n; i++)
        if (strcmp(name, names[i]) == 0)
            return 1;
    return 0;
}

/* Each line of nm's portable form is a name, a letter, and for a defined name its place. */
static void symbols(void)
{
    FILE *names = popen("nm -g -P build/libcellumaq.a", "r");
    char line[512], name[256], kind;
    int defined = 0;

    CHECK(names != NULL, "there is no nm");
    while (names != NULL && fgets(line, sizeof line, names) != NULL) {
        if (sscanf(line, "%255s %c", name, &kind) != 2)
            continue;
        if (kind == 'U') {
            CHECK(is_one_of(name, needed, NEEDED), "the archive needs %s", name);
        } else {
            CHECK(kind == 'T' && is_one_of(name, functions, FUNCTIONS), "the archive has %s of kind %c", name, kind);
            defined++;
        }
    }
    CHECK(defined == FUNCTIONS, "the archive has %d names", defined);
    if (names != NULL)
        pclose(names);
}

int main(void)
{
    test_run("names of the archive", symbols);
    return test_summary();
}
