/* cellumaq_checksum against lookup3.c's own vectors and against a reference of this test's. */
#include <string.h>

#include "cellumaq.h"
#include "lookup3.h"
#include "test.h"

static uint32_t of(const char *text)
{
    return cellumaq_checksum((const uint8_t *)text, strlen(text));
}

/* The vectors of lookup3.c's driver5 and driver4 whose start value is 0. */
static void driver_vectors(void)
{
    CHECK(of("") == 0xdeadbeef, "empty: %08x", of(""));
    CHECK(of("Four score and seven years ago") == 0x17770551, "Four score: %08x", of("Four score and seven years ago"));
    CHECK(cellumaq_checksum(NULL, 0) == 0xdeadbeef, "NULL of length 0");
}

/* Every length from 0 to 64 at every alignment, with low, high and mixed bytes; the bytes around the slice must not
 * matter, and stay. */
static void lengths_and_alignments(void)
{
    for (int fill = 0; fill < 3; fill++) {
        for (size_t start = 0; start < 16; start++) {
            for (size_t length = 0; length <= 64; length++) {
                uint8_t memory[96], before[96];
                uint32_t state = 1;

                for (size_t i = 0; i < sizeof memory; i++) {
                    state = state * 1103515245 + 12345;
                    memory[i] = fill == 0 ? (uint8_t)i : fill == 1 ? 0xff : (uint8_t)(state >> 16);
                }
                memcpy(before, memory, sizeof memory);
                uint32_t expected = lookup3_reference(memory + start, length, 0);
                CHECK(cellumaq_checksum(memory + start, length) == expected, "fill %d, start %zu, length %zu", fill,
                      start, length);
                memset(memory, 0x5a, start);
                memset(memory + start + length, 0x5a, sizeof memory - start - length);
                CHECK(cellumaq_checksum(memory + start, length) == expected,
                      "bytes outside the slice, start %zu, length %zu", start, length);
                CHECK(memcmp(memory + start, before + start, length) == 0,
                      "the slice was written, start %zu, length %zu", start, length);
            }
        }
    }
}

/* Each bit of a body reaches the checksum. */
static void every_bit_counts(void)
{
    for (size_t length = 1; length <= 26; length++) {
        uint8_t body[26] = {0};
        uint32_t zeros = cellumaq_checksum(body, length);

        for (size_t bit = 0; bit < 8 * length; bit++) {
            body[bit / 8] ^= (uint8_t)(1 << (bit % 8));
            CHECK(cellumaq_checksum(body, length) != zeros, "bit %zu of %zu bytes", bit, length);
            body[bit / 8] ^= (uint8_t)(1 << (bit % 8));
        }
    }
}

int main(void)
{
    test_run("checksum: vectors of lookup3.c", driver_vectors);
    test_run("checksum: lengths 0 to 64 at every alignment", lengths_and_alignments);
    test_run("checksum: every bit counts", every_bit_counts);
    return test_summary();
}
