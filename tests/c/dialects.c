/* All of cellumaq.h, in words that C99, C11 and C++ share. test_header compiles it as each of them and runs it; it ends
 * with 0 where the answers are those of a file without bytes. */
#include <cellumaq.h>

static struct cellumaq_dataset dataset;

int main(void)
{
    const struct cellumaq_dataset *d = &dataset;
    uint64_t corner[1] = {20};
    uint8_t shape[8], list[24] = {0};

    dataset.offset_size = dataset.length_size = 8;
    dataset.element_bytes = 4;
    dataset.order = CELLUMAQ_UNLIMITED_FIRST;
    dataset.rank = 1;
    dataset.chunk[0] = 10;
    dataset.present[0] = 25;
    dataset.maximum[0] = CELLUMAQ_UNLIMITED;
    cellumaq_put_length(shape, 0, 10);

    struct cellumaq_answer a = cellumaq_ask_list(d, list, sizeof list), b = cellumaq_ask_lookup(d, corner);
    struct cellumaq_answer f = cellumaq_ask_fixed_list(d, list, sizeof list), g = cellumaq_ask_fixed_lookup(d, corner);
    uint64_t end = cellumaq_list(NULL, 0, 8, 8, 0, 4, CELLUMAQ_ROW_MAJOR, 1, shape, 8, shape, 8, 0, NULL, 0, list,
                                 sizeof list, CELLUMAQ_FIRST_FIGURE);
    uint64_t refusal = cellumaq_lookup(NULL, 0, 8, 8, 0, 4, CELLUMAQ_UNLIMITED_FIRST, 1, shape, 8, shape, 8, 0, NULL, 0,
                                       shape, 8, CELLUMAQ_REFUSAL);
    uint64_t fixed_end = cellumaq_fixed_list(NULL, 0, 8, 8, 0, 4, 1, shape, 8, shape, 8, 0, NULL, 0, list, sizeof list,
                                             CELLUMAQ_FIRST_FIGURE);
    uint64_t fixed_refusal = cellumaq_fixed_lookup(NULL, 0, 8, 8, 0, 4, 1, shape, 8, shape, 8, 0, NULL, 0, shape, 8,
                                                   CELLUMAQ_REFUSAL);
    int empty = cellumaq_record_address(list, 1, 0) == 0 && cellumaq_record_chunk_size(list, 1, 0) == 0 &&
                cellumaq_record_mask(list, 1, 0) == 0 && cellumaq_record_offset(list, 1, 0, 0) == 0;

    return !(empty && cellumaq_checksum(NULL, 0) == 0xdeadbeef && end == 72 && refusal == CELLUMAQ_REFUSED_PAST_END &&
             a.refusal == refusal && a.first == end && b.refusal == refusal && b.first == end && fixed_end == 28 &&
             fixed_refusal == refusal && f.refusal == refusal && f.first == fixed_end && g.refusal == refusal &&
             g.first == fixed_end && cellumaq_get(shape, 8) == 10 && sizeof list == cellumaq_record_size(1));
}
