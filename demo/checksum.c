/* Prints the metadata checksum of a file's bytes. */
#include "cellumaq.h"
#include "file.h"

int main(int argc, char **argv)
{
    size_t length;

    if (argc != 2) {
        fprintf(stderr, "usage: checksum FILE\n");
        return 1;
    }
    uint8_t *bytes = read_all(argv[1], &length);
    printf("%s: %zu bytes, checksum 0x%08x\n", argv[1], length, cellumaq_checksum(bytes, length));
    free(bytes);
    return 0;
}
