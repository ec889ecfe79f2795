/* Prints one chunk of a dataset: lookup FILE OFFSETSIZE LENGTHSIZE ADDRESS ELEMENTBYTES CHUNK PRESENT MAXIMUM CORNER
 * (see dataset.h). */
#include "dataset.h"

int main(int argc, char **argv)
{
    if (argc != 2 + DATASET_ARGUMENTS) {
        fprintf(stderr, "usage: lookup FILE OFFSETSIZE LENGTHSIZE ADDRESS ELEMENTBYTES CHUNK PRESENT MAXIMUM CORNER\n");
        return 1;
    }
    struct cellumaq_dataset d = read_dataset(argv + 1);
    const char *text = argv[1 + DATASET_ARGUMENTS];
    uint64_t corner[CELLUMAQ_RANK_MOST];

    read_shape(&d, text, corner);
    struct cellumaq_answer a = has_fixed_array(&d) ? cellumaq_ask_fixed_lookup(&d, corner)
                                                   : cellumaq_ask_lookup(&d, corner);
    if (is_refused(&a))
        return 1;
    if (a.count == 0)
        printf("corner %s: no chunk\n", text);
    else
        printf("corner %s: %" PRIu64 " bytes at %" PRIu64 ", filter mask %" PRIu64 "\n", text, a.size, a.address,
               a.mask);
    return 0;
}
