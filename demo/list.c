/* Prints the chunks of a dataset: list FILE OFFSETSIZE LENGTHSIZE ADDRESS ELEMENTBYTES CHUNK PRESENT MAXIMUM (see
 * dataset.h). */
#include "dataset.h"

static void print_record(const uint8_t *list, size_t rank, size_t i)
{
    printf("corner");
    for (size_t d = 0; d < rank; d++)
        printf(" %" PRIu64, cellumaq_record_offset(list, rank, i, d));
    printf(": %u bytes at %" PRIu64 ", filter mask %u\n", cellumaq_record_chunk_size(list, rank, i),
           cellumaq_record_address(list, rank, i), cellumaq_record_mask(list, rank, i));
}

static struct cellumaq_answer ask_list(const struct cellumaq_dataset *d, uint8_t *list, size_t length)
{
    return has_fixed_array(d) ? cellumaq_ask_fixed_list(d, list, length) : cellumaq_ask_list(d, list, length);
}

int main(int argc, char **argv)
{
    if (argc != 1 + DATASET_ARGUMENTS) {
        fprintf(stderr, "usage: list FILE OFFSETSIZE LENGTHSIZE ADDRESS ELEMENTBYTES CHUNK PRESENT MAXIMUM\n");
        return 1;
    }
    struct cellumaq_dataset d = read_dataset(argv + 1);

    /* A list without room is refused; the refusal says how much it needs. */
    struct cellumaq_answer a = ask_list(&d, NULL, 0);
    size_t length = a.refusal == CELLUMAQ_REFUSED_LIST_TOO_SMALL ? a.first * cellumaq_record_size(d.rank) : 0;
    uint8_t *list = malloc(length + 1);
    if (list == NULL)
        return 1;
    a = ask_list(&d, list, length);
    if (is_refused(&a))
        return 1;
    for (size_t i = 0; i < a.count; i++)
        print_record(list, d.rank, i);
    printf("%s: %" PRIu64 " chunks\n", argv[1], a.count);
    free(list);
    return 0;
}
