/* How a program asks Cellumaq: for all chunks of a dataset, for one chunk by its corner, and for the reason where there
 * is no answer.
 *
 *     matcher FILE ADDRESS ROW COLUMN [fixed]
 *
 * The dataset is described by the program here: numbers of 4 bytes, 11 rows of 13 at present, any number of rows of 15
 * at most, in chunks of 4 by 4. ADDRESS is where its index begins, with the bytes "EAHD". With the word `fixed` there
 * are 14 rows at most: then the index is a Fixed Array and begins with "FAHD". In general all of this is in the
 * dataset's object header: the shapes in the dataspace message, the chunk's lengths and the index address in the data
 * layout message (version 4; chunk index type 4, or 3 for a Fixed Array), the sizes of offsets and lengths in the
 * file's superblock.
 *
 *     gcc matcher.c $(pkg-config --cflags --libs cellumaq)
 */
#include <cellumaq.h>
#include <inttypes.h>
#include <stdbool.h>
#include <stdio.h>
#include <stdlib.h>
#include <string.h>

/* A file can claim more chunks than a program wants to hold. */
enum { FIRST_GUESS = 4, RECORDS_MOST = 1000000 };

static const char *const words[] = {
    [CELLUMAQ_REFUSED_OFFSET_SIZE] = "offsets of that many bytes are not read",
    [CELLUMAQ_REFUSED_LENGTH_SIZE] = "lengths of that many bytes are not read",
    [CELLUMAQ_REFUSED_RANK] = "the rank is over 32, or the chunk has more lengths",
    [CELLUMAQ_REFUSED_MAXIMUM_RANK] = "a maximum length is below the present one",
    [CELLUMAQ_REFUSED_CHUNK_LENGTH] = "a chunk has length 0",
    [CELLUMAQ_REFUSED_UNLIMITED] = "a second dimension is unlimited",
    [CELLUMAQ_REFUSED_TOO_MANY_CHUNKS] = "the shapes have more chunks than can be numbered",
    [CELLUMAQ_REFUSED_LIST_TOO_SMALL] = "the list is too small for so many records",
    [CELLUMAQ_REFUSED_CORNER] = "no chunk of the present shape begins there",
    [CELLUMAQ_REFUSED_PAST_END] = "a structure ends behind the file; its end, the file's length",
    [CELLUMAQ_REFUSED_HEADER_SIGNATURE] = "no index begins at the address",
    [CELLUMAQ_REFUSED_HEADER_VERSION] = "the index has a version that is not read",
    [CELLUMAQ_REFUSED_INDEX_BLOCK_SIGNATURE] = "there is no index block where the header names it",
    [CELLUMAQ_REFUSED_DATA_BLOCK_SIGNATURE] = "there is no data block where one is named",
    [CELLUMAQ_REFUSED_SUPER_BLOCK_SIGNATURE] = "there is no super block where one is named",
    [CELLUMAQ_REFUSED_CHECKSUM] = "the index is damaged; the checksum stored, the one computed",
    [CELLUMAQ_REFUSED_HEADER_NOT_SERVED] = "the index has parameters that are not read",
    [CELLUMAQ_REFUSED_ELEMENT_SIZE] = "the index has too short elements",
    [CELLUMAQ_REFUSED_SIZE_FIELD] = "the index has too long elements",
    [CELLUMAQ_REFUSED_CHUNK_SIZE] = "a chunk has too many bytes",
    [CELLUMAQ_REFUSED_PAGE_OVERFLOW] = "a page lies beyond all addresses; its number, the bytes from page to page",
    [CELLUMAQ_REFUSED_NUMBERS_NOTHING] = "the index has a chunk, the shapes have none",
    [CELLUMAQ_REFUSED_OFFSET_OVERFLOW] = "a chunk lies beyond all offsets",
    [CELLUMAQ_REFUSED_FIXED_HEADER_SIGNATURE] = "no Fixed Array begins at the address",
    [CELLUMAQ_REFUSED_FIXED_DATA_BLOCK_SIGNATURE] = "there is no data block where the header names it",
};

static void tell(const char *what, struct cellumaq_answer a)
{
    const char *why = a.refusal < sizeof words / sizeof *words ? words[a.refusal] : NULL;

    printf("no %s: %s (%" PRIu64 ", %" PRIu64 ", %" PRIu64 ")\n", what, why != NULL ? why : "another reason", a.refusal,
           a.first, a.second);
}

/* Memory, or the program's end. */
static void *room_for(size_t length)
{
    void *room = malloc(length + 1);

    if (room == NULL)
        exit(3);
    return room;
}

static struct cellumaq_answer ask_list(bool fixed, const struct cellumaq_dataset *d, uint8_t *list, size_t length)
{
    return fixed ? cellumaq_ask_fixed_list(d, list, length) : cellumaq_ask_list(d, list, length);
}

/* Prints the records of all chunks; whether there is a list. */
static int print_list(bool fixed, const struct cellumaq_dataset *d)
{
    uint64_t room = FIRST_GUESS;
    struct cellumaq_answer a;
    uint8_t *list = NULL;

    do {
        free(list);
        list = room_for(room * cellumaq_record_size(d->rank));
        a = ask_list(fixed, d, list, room * cellumaq_record_size(d->rank));
        room = a.first;
    } while (a.refusal == CELLUMAQ_REFUSED_LIST_TOO_SMALL && room <= RECORDS_MOST);
    for (size_t i = 0; i < a.count; i++)
        printf("row %" PRIu64 ", column %" PRIu64 ": %" PRIu32 " bytes at %" PRIu64 ", filter mask %" PRIu32 "\n",
               cellumaq_record_offset(list, d->rank, i, 0), cellumaq_record_offset(list, d->rank, i, 1),
               cellumaq_record_chunk_size(list, d->rank, i), cellumaq_record_address(list, d->rank, i),
               cellumaq_record_mask(list, d->rank, i));
    if (a.refusal == CELLUMAQ_ACCEPTED)
        printf("%" PRIu64 " chunks\n", a.count);
    else
        tell("list", a);
    free(list);
    return a.refusal == CELLUMAQ_ACCEPTED;
}

static void print_chunk(bool fixed, const struct cellumaq_dataset *d, uint64_t row, uint64_t column)
{
    const uint64_t corner[] = {row, column};
    struct cellumaq_answer a = fixed ? cellumaq_ask_fixed_lookup(d, corner) : cellumaq_ask_lookup(d, corner);

    if (a.refusal != CELLUMAQ_ACCEPTED)
        tell("chunk", a);
    else if (a.count == 0)
        printf("the chunk at row %" PRIu64 ", column %" PRIu64 " was never written\n", row, column);
    else
        printf("the chunk at row %" PRIu64 ", column %" PRIu64 ": %" PRIu64 " bytes at %" PRIu64
               ", filter mask %" PRIu64 "\n",
               row, column, a.size, a.address, a.mask);
}

/* All bytes of a file, or NULL. */
static uint8_t *read_file(const char *path, size_t *length)
{
    FILE *stream = fopen(path, "rb");
    uint8_t *bytes = NULL;
    long end;

    if (stream == NULL)
        return NULL;
    if (fseek(stream, 0, SEEK_END) == 0 && (end = ftell(stream)) >= 0) {
        bytes = room_for((size_t)end);
        rewind(stream);
        *length = fread(bytes, 1, (size_t)end, stream);
    }
    fclose(stream);
    return bytes;
}

int main(int argc, char **argv)
{
    size_t length;
    bool fixed = argc == 6 && strcmp(argv[5], "fixed") == 0;
    uint8_t *file = argc == 5 || fixed ? read_file(argv[1], &length) : NULL;

    if (file == NULL) {
        fprintf(stderr, "usage: matcher FILE ADDRESS ROW COLUMN [fixed]\n");
        return 2;
    }
    struct cellumaq_dataset d = {.file = file, .file_length = length, .offset_size = 8, .length_size = 8,
                                 .address = strtoull(argv[2], NULL, 10), .element_bytes = 4,
                                 .order = CELLUMAQ_UNLIMITED_FIRST, .rank = 2, .chunk = {4, 4}, .present = {11, 13},
                                 .maximum = {fixed ? 14 : CELLUMAQ_UNLIMITED, 15}};
    int listed = print_list(fixed, &d);

    print_chunk(fixed, &d, strtoull(argv[3], NULL, 10), strtoull(argv[4], NULL, 10));
    free(file);
    return !listed;
}
