/* Cellumaq: a proved reader of two HDF5 chunk indexes, the extensible array and the Fixed Array. For C99, C11 and C++.
 *
 * A program describes its dataset in a struct cellumaq_dataset and asks with cellumaq_ask_list() and
 * cellumaq_ask_lookup(), where the index is a Fixed Array with cellumaq_ask_fixed_list() and
 * cellumaq_ask_fixed_lookup(). These and the other functions that are defined in this file are C, tested and not
 * proved. The library has five functions: cellumaq_checksum(), cellumaq_list() and cellumaq_lookup(),
 * cellumaq_fixed_list() and cellumaq_fixed_lookup(). Each of them answers for any bytes and numbers, allocates nothing,
 * keeps no state, and may be called from several threads at once. A slice of bytes is a pointer and a length; the
 * pointer may be NULL where the length is 0. What the calls cost stands at the end of this file.
 */
#ifndef CELLUMAQ_H
#define CELLUMAQ_H

#include <stddef.h>
#include <stdint.h>

#ifdef __cplusplus
extern "C" {
#endif

/* HDF5's metadata checksum: Bob Jenkins' lookup3, hashlittle with start value 0, of `length` bytes. They are only read,
 * at any alignment. */
uint32_t cellumaq_checksum(const uint8_t *bytes, size_t length);

/* The length of a dimension without an end: as its maximum length, or as its present one where no maximum is given. */
#define CELLUMAQ_UNLIMITED UINT64_MAX

/* The most dimensions that a dataset may have. */
#define CELLUMAQ_RANK_MOST 32

/* Why a call gives no result. A refusal has two figures; each is 0 where none is named here, and UINT64_MAX where it
 * would be more. Of several reasons the first that is met is told: the header (20, 21, 22, 2, 1, 26), then the shapes
 * (3 to 8) and the corner, then 27, the index block and its elements, and the other blocks and theirs in the order of
 * the chunks' numbers; a list that is too small comes last. In a Fixed Array it is the header (20, 34, 22, 2, 1, 26),
 * the shapes and the corner, 27, the data block's first bytes (20, 35), 28, then the data block (20, 26) and its
 * elements, or, where it has pages, its head with their bits (20, 26), then each page (31, 20, 26) and its elements. */
enum cellumaq_refusal {
    CELLUMAQ_ACCEPTED = 0, /* no refusal */

    /* What the caller gave. */
    CELLUMAQ_REFUSED_OFFSET_SIZE = 1,     /* the offset size isn't 2, 4 or 8; first figure: it */
    CELLUMAQ_REFUSED_LENGTH_SIZE = 2,     /* the length size isn't 2, 4 or 8; first figure: it */
    CELLUMAQ_REFUSED_RANK = 3,            /* the rank is over 32, or the chunk shape isn't of 8 * rank bytes */
    CELLUMAQ_REFUSED_PRESENT_RANK = 4,    /* the present shape isn't of 8 * rank bytes */
    CELLUMAQ_REFUSED_MAXIMUM_RANK = 5,    /* a maximum shape is given that isn't of 8 * rank bytes */
    CELLUMAQ_REFUSED_CHUNK_LENGTH = 6,    /* a chunk has length 0 in some dimension */
    CELLUMAQ_REFUSED_UNLIMITED = 7,       /* another dimension than the leading one is unlimited: with the unlimited
                                           * dimension first a second one, in row-major order any but the first */
    CELLUMAQ_REFUSED_TOO_MANY_CHUNKS = 8, /* a product of chunk counts of some dimensions, which the chunks' numbers are
                                           * made of, is over 2^64 - 1 */
    CELLUMAQ_REFUSED_LIST_TOO_SMALL = 9,  /* the list has no room for all records; first figure: how many there are */
    CELLUMAQ_REFUSED_CORNER = 10,         /* the corner isn't of 8 * rank bytes, no multiple of the chunk's lengths, or
                                           * not below the present ones */

    /* What the file's writer wrote. */
    CELLUMAQ_REFUSED_PAST_END = 20,              /* a structure ends behind the file; figures: its end, the file's
                                                  * length. In an extensible array that was never written to the
                                                  * index block's address has all bits set; it is read like any
                                                  * other, and refused with this where the file ends before an
                                                  * index block there would */
    CELLUMAQ_REFUSED_HEADER_SIGNATURE = 21,      /* no "EAHD" at the address */
    CELLUMAQ_REFUSED_HEADER_VERSION = 22,        /* the header's version isn't 0; first figure: it */
    CELLUMAQ_REFUSED_INDEX_BLOCK_SIGNATURE = 23, /* no "EAIB" where the header names the index block */
    CELLUMAQ_REFUSED_DATA_BLOCK_SIGNATURE = 24,  /* no "EADB" where a data block is named */
    CELLUMAQ_REFUSED_SUPER_BLOCK_SIGNATURE = 25, /* no "EASB" where a super block is named */
    CELLUMAQ_REFUSED_CHECKSUM = 26,              /* a structure's checksum is wrong; figures: the stored one,
                                                  * the computed one */
    CELLUMAQ_REFUSED_HEADER_NOT_SERVED = 27,     /* the header is sound, but beyond what is read here: least block
                                                  * elements no power of two from 1 to 128, max bits over 62, super
                                                  * block minimum over 32, or page exponent over 32; of a Fixed
                                                  * Array only the last */
    CELLUMAQ_REFUSED_ELEMENT_SIZE = 28,          /* a filtered element has too few bytes for an address and a mask.
                                                  * In a Fixed Array no element is looked at before, and there need
                                                  * be none */
    CELLUMAQ_REFUSED_SIZE_FIELD = 29,            /* a filtered element has over 8 bytes for the chunk's size */
    CELLUMAQ_REFUSED_CHUNK_SIZE = 30,            /* a chunk's size is over 2^32 - 1; first figure: it */
    CELLUMAQ_REFUSED_PAGE_OVERFLOW = 31,         /* a page of a Fixed Array begins over 2^64 - 1 bytes behind the
                                                  * first; figures: its number, the bytes from page to page */
    CELLUMAQ_REFUSED_NUMBERS_NOTHING = 32,       /* a chunk is named though a dimension behind the leading
                                                  * one has no chunks */
    CELLUMAQ_REFUSED_OFFSET_OVERFLOW = 33,       /* a chunk's offset is over 2^64 - 1 */

    /* The same of a Fixed Array alone. */
    CELLUMAQ_REFUSED_FIXED_HEADER_SIGNATURE = 34,    /* no "FAHD" at the address */
    CELLUMAQ_REFUSED_FIXED_DATA_BLOCK_SIGNATURE = 35 /* no "FADB" where the header names the data block */
};

/* The number that a call returns is picked by its last argument, `which`. Any other argument gives the refusal, as 0
 * does. */
enum cellumaq_which {
    CELLUMAQ_REFUSAL = 0,       /* the refusal's number, 0 where the call is accepted */
    CELLUMAQ_FIRST_FIGURE = 1,  /* the refusal's figures */
    CELLUMAQ_SECOND_FIGURE = 2,
    CELLUMAQ_COUNT = 3,         /* how many records there are, 0 after a refusal; of a lookup 1 or 0 */
    CELLUMAQ_FOUND_ADDRESS = 4, /* of a lookup: the chunk's address, size and filter mask, 0 where it isn't there; of a
                                 * list 0 */
    CELLUMAQ_FOUND_SIZE = 5,
    CELLUMAQ_FOUND_MASK = 6
};

/* How a dataset's chunks are numbered. HDF5 numbers those of an extensible array with the unlimited dimension first.
 * Where a call in row-major order isn't refused with 7 or 8, both orders give the same. Those of a Fixed Array are
 * always numbered in row-major order. */
enum cellumaq_order {
    CELLUMAQ_ROW_MAJOR = 0,      /* the last dimension fastest */
    CELLUMAQ_UNLIMITED_FIRST = 1 /* the first unlimited dimension slowest, the others as they stand; any number
                                  * but 0 */
};

/* A dataset whose chunk index is an extensible array or a Fixed Array, as its object header and the file's superblock
 * describe it.
 *
 * All of the struct has to be set. In C that is done by naming fields, `struct cellumaq_dataset d = {.file = ..}`, in
 * C++ by `d{}` and then field by field; what isn't named is 0. A field that is forgotten is refused, with the number
 * beside it if the file isn't refused before, unless it makes no difference; but present lengths of 0 are those of a
 * dataset that has no element: its list is empty, and no corner is in it (10). A field that is added later has a 0 that
 * means what is read without it.
 */
struct cellumaq_dataset {
    const uint8_t *file;    /* the file from its first byte on, or from its base address on where it has a user block:
                             * an address is a position in this slice */
    size_t file_length;     /* forgotten: 20 */
    uint64_t offset_size;   /* how many bytes the file has for an offset and for a length: 2, 4 or 8, as the superblock
                             * says; forgotten: 1, 2 */
    uint64_t length_size;
    uint64_t address;       /* where the array's header, "EAHD" or "FAHD", begins, as the data layout message says;
                             * forgotten: 21 or 34, since an HDF5 file begins otherwise */
    uint64_t element_bytes; /* of one element of the dataset. The size of a chunk that isn't filtered is the product of
                             * the chunk's lengths and this; forgotten: 30 at the first such chunk */
    uint64_t order;         /* enum cellumaq_order: CELLUMAQ_UNLIMITED_FIRST; forgotten: row-major, which gives the
                             * same, or 7 or 8. Of a Fixed Array it plays no part */
    uint64_t rank;          /* how many dimensions the dataset has, 0 to 32; forgotten: 3, as wherever a shape has a
                             * length behind the rank */
    uint64_t chunk[CELLUMAQ_RANK_MOST];   /* the lengths of a chunk (the data layout message has one number more, the
                                           * bytes of an element); forgotten: 6 */
    uint64_t present[CELLUMAQ_RANK_MOST]; /* the lengths of the dataset at present */
    uint64_t maximum[CELLUMAQ_RANK_MOST]; /* the lengths that it can grow to, CELLUMAQ_UNLIMITED where the dataspace
                                           * message has all bits set, in however few bytes; where it has no maximum,
                                           * those at present; forgotten: 5, as wherever one is below the present
                                           * length */
};

/* Lists the chunks of a dataset. The arguments are the fields of struct cellumaq_dataset, each shape as 8 * rank bytes
 * (cellumaq_put_length()), but elements of 0 bytes and a maximum below the present length are taken as they are;
 * `order` is an enum cellumaq_order, `which` an enum cellumaq_which. Where has_maximum is 0, the present shape stands
 * for the maximum, which isn't looked at. `list` is room for list_length / cellumaq_record_size(rank) records, rounded
 * down, at any alignment; it overlaps no other slice, and they are only read.
 *
 * If the call is accepted, each chunk that the array has an address for below its published count, and whose corner is
 * in the present shape, has one record, in the order of the chunks' numbers (at rank 0 each such address has one); the
 * bytes behind the last record stay as they were. After a refusal the whole list is as it was. What is written doesn't
 * depend on `which`. Unless there is no record, or something else is refused, a list of length 0 is refused with
 * CELLUMAQ_REFUSED_LIST_TOO_SMALL, whose first figure says how many there are. */
uint64_t cellumaq_list(const uint8_t *file, size_t file_length, uint64_t offset_size, uint64_t length_size,
                       uint64_t address, uint64_t element_bytes, uint64_t order, uint64_t rank, const uint8_t *chunk,
                       size_t chunk_length, const uint8_t *present, size_t present_length, uint64_t has_maximum,
                       const uint8_t *maximum, size_t maximum_length, uint8_t *list, size_t list_length,
                       uint64_t which);

/* Looks up one chunk of a dataset by its corner, the offsets of its first element, stored as a shape is. The other
 * arguments are those of cellumaq_list(). All slices are only read.
 *
 * From rank 1 on: where the list is accepted, or refused for its room alone, the lookup of a chunk in the present shape
 * is accepted, and finds what the list has for its corner, or nothing where the list has no such record. At rank 0 all
 * chunks have the same corner, and that with number 0 is looked up. Only what leads to the chunk is tested: the header,
 * the index block, and the super block, data block and page that name it. Damage elsewhere is not noticed. */
uint64_t cellumaq_lookup(const uint8_t *file, size_t file_length, uint64_t offset_size, uint64_t length_size,
                         uint64_t address, uint64_t element_bytes, uint64_t order, uint64_t rank, const uint8_t *chunk,
                         size_t chunk_length, const uint8_t *present, size_t present_length, uint64_t has_maximum,
                         const uint8_t *maximum, size_t maximum_length, const uint8_t *corner, size_t corner_length,
                         uint64_t which);

/* The same two calls where the index is a Fixed Array. They take no order: it is row-major. The count is the header's
 * number of entries. An array that was never written to has a data block address with all bits set: its list is empty,
 * and no chunk is found. The lookup tests the header and, for a chunk whose number is below the count, the data block;
 * of one with pages its head, and the chunk's page where its bit is set. */
uint64_t cellumaq_fixed_list(const uint8_t *file, size_t file_length, uint64_t offset_size, uint64_t length_size,
                             uint64_t address, uint64_t element_bytes, uint64_t rank, const uint8_t *chunk,
                             size_t chunk_length, const uint8_t *present, size_t present_length, uint64_t has_maximum,
                             const uint8_t *maximum, size_t maximum_length, uint8_t *list, size_t list_length,
                             uint64_t which);

uint64_t cellumaq_fixed_lookup(const uint8_t *file, size_t file_length, uint64_t offset_size, uint64_t length_size,
                               uint64_t address, uint64_t element_bytes, uint64_t rank, const uint8_t *chunk,
                               size_t chunk_length, const uint8_t *present, size_t present_length,
                               uint64_t has_maximum, const uint8_t *maximum, size_t maximum_length,
                               const uint8_t *corner, size_t corner_length, uint64_t which);

/* Stores a dimension's length into a shape, or its offset into a corner, of at least 8 * (dimension + 1) bytes. The
 * first dimension is 0. */
static inline void cellumaq_put_length(uint8_t *shape, size_t dimension, uint64_t length)
{
    for (size_t i = 0; i < 8; i++)
        shape[8 * dimension + i] = (uint8_t)(length >> (8 * i));
}

/* A number of `width` bytes, 8 at most, little-endian. */
static inline uint64_t cellumaq_get(const uint8_t *bytes, size_t width)
{
    uint64_t number = 0;

    for (size_t i = width; i > 0; i--)
        number = number << 8 | bytes[i - 1];
    return number;
}

/* The bytes of one record: the chunk's address 8, its size 4, its filter mask 4, its corner's offset 8 in each
 * dimension, all little-endian. */
static inline size_t cellumaq_record_size(size_t rank)
{
    return 16 + 8 * rank;
}

/* The fields of record i, which must be below the count. */
static inline uint64_t cellumaq_record_address(const uint8_t *list, size_t rank, size_t i)
{
    return cellumaq_get(list + i * cellumaq_record_size(rank), 8);
}

static inline uint32_t cellumaq_record_chunk_size(const uint8_t *list, size_t rank, size_t i)
{
    return (uint32_t)cellumaq_get(list + i * cellumaq_record_size(rank) + 8, 4);
}

static inline uint32_t cellumaq_record_mask(const uint8_t *list, size_t rank, size_t i)
{
    return (uint32_t)cellumaq_get(list + i * cellumaq_record_size(rank) + 12, 4);
}

static inline uint64_t cellumaq_record_offset(const uint8_t *list, size_t rank, size_t i, size_t dimension)
{
    return cellumaq_get(list + i * cellumaq_record_size(rank) + 16 + 8 * dimension, 8);
}

/* What a call takes in place of a dataset's fields, and a corner; for the functions below. */
struct cellumaq_arguments {
    uint64_t element_bytes;
    size_t chunk_length, present_length, maximum_length, corner_length;
    uint8_t chunk[8 * CELLUMAQ_RANK_MOST], present[8 * CELLUMAQ_RANK_MOST], maximum[8 * CELLUMAQ_RANK_MOST];
    uint8_t corner[8 * CELLUMAQ_RANK_MOST];
};

/* Stores a shape, or a corner, of some dimensions; its length. */
static inline size_t cellumaq_put_shape(uint8_t *shape, const uint64_t *lengths, size_t dimensions)
{
    for (size_t i = 0; i < dimensions; i++)
        cellumaq_put_length(shape, i, lengths[i]);
    return 8 * dimensions;
}

/* A rank over 32 is refused, whatever the shapes are. Elements without bytes, a length behind the rank and a maximum
 * below the present length, which no dataset has, are made arguments that are refused: elements too large, a chunk
 * shape too long, a maximum shape too short. */
static inline void cellumaq_put_arguments(struct cellumaq_arguments *a, const struct cellumaq_dataset *d,
                                          const uint64_t *corner)
{
    size_t rank = d->rank <= CELLUMAQ_RANK_MOST ? (size_t)d->rank : 0;
    size_t behind = rank < CELLUMAQ_RANK_MOST && (d->chunk[rank] | d->present[rank] | d->maximum[rank]) != 0 ? 1 : 0;

    a->element_bytes = d->element_bytes != 0 ? d->element_bytes : UINT64_MAX;
    a->chunk_length = cellumaq_put_shape(a->chunk, d->chunk, rank + behind);
    a->present_length = cellumaq_put_shape(a->present, d->present, rank);
    a->maximum_length = cellumaq_put_shape(a->maximum, d->maximum, rank);
    a->corner_length = cellumaq_put_shape(a->corner, corner, corner != NULL ? rank : 0);
    for (size_t i = 0; i < rank; i++)
        if (d->maximum[i] < d->present[i])
            a->maximum_length = 0;
}

/* The four calls of a dataset. A corner has an offset for each dimension; NULL is one without offsets. */
static inline uint64_t cellumaq_list_dataset(const struct cellumaq_dataset *d, uint8_t *list, size_t list_length,
                                             uint64_t which)
{
    struct cellumaq_arguments a;

    cellumaq_put_arguments(&a, d, NULL);
    return cellumaq_list(d->file, d->file_length, d->offset_size, d->length_size, d->address, a.element_bytes,
                         d->order, d->rank, a.chunk, a.chunk_length, a.present, a.present_length, 1, a.maximum,
                         a.maximum_length, list, list_length, which);
}

static inline uint64_t cellumaq_lookup_dataset(const struct cellumaq_dataset *d, const uint64_t *corner, uint64_t which)
{
    struct cellumaq_arguments a;

    cellumaq_put_arguments(&a, d, corner);
    return cellumaq_lookup(d->file, d->file_length, d->offset_size, d->length_size, d->address, a.element_bytes,
                           d->order, d->rank, a.chunk, a.chunk_length, a.present, a.present_length, 1, a.maximum,
                           a.maximum_length, a.corner, a.corner_length, which);
}

static inline uint64_t cellumaq_fixed_list_dataset(const struct cellumaq_dataset *d, uint8_t *list, size_t list_length,
                                                   uint64_t which)
{
    struct cellumaq_arguments a;

    cellumaq_put_arguments(&a, d, NULL);
    return cellumaq_fixed_list(d->file, d->file_length, d->offset_size, d->length_size, d->address, a.element_bytes,
                               d->rank, a.chunk, a.chunk_length, a.present, a.present_length, 1, a.maximum,
                               a.maximum_length, list, list_length, which);
}

static inline uint64_t cellumaq_fixed_lookup_dataset(const struct cellumaq_dataset *d, const uint64_t *corner,
                                                     uint64_t which)
{
    struct cellumaq_arguments a;

    cellumaq_put_arguments(&a, d, corner);
    return cellumaq_fixed_lookup(d->file, d->file_length, d->offset_size, d->length_size, d->address, a.element_bytes,
                                 d->rank, a.chunk, a.chunk_length, a.present, a.present_length, 1, a.maximum,
                                 a.maximum_length, a.corner, a.corner_length, which);
}

/* A list and a lookup as these are; for the functions below. */
typedef uint64_t cellumaq_list_function(const struct cellumaq_dataset *d, uint8_t *list, size_t list_length,
                                        uint64_t which);
typedef uint64_t cellumaq_lookup_function(const struct cellumaq_dataset *d, const uint64_t *corner, uint64_t which);

/* All numbers of an answer, as enum cellumaq_which has them. */
struct cellumaq_answer {
    uint64_t refusal, first, second; /* enum cellumaq_refusal, and its figures */
    uint64_t count;                  /* how many records the list has; of a lookup 1 or 0 */
    uint64_t address, size, mask;    /* of the chunk that was looked up; of a list 0 */
};

/* All numbers that one of them answers. Each is asked for by a call of its own, and only where it may be another than
 * 0: a list takes one call where it has a record, two where it is accepted without one, and four where it is refused; a
 * lookup two where the chunk isn't there, otherwise four. */
static inline struct cellumaq_answer cellumaq_ask_list_by(cellumaq_list_function *list_of,
                                                          const struct cellumaq_dataset *d, uint8_t *list,
                                                          size_t list_length)
{
    struct cellumaq_answer a = {0, 0, 0, 0, 0, 0, 0};

    a.count = list_of(d, list, list_length, CELLUMAQ_COUNT);
    if (a.count == 0)
        a.refusal = list_of(d, list, list_length, CELLUMAQ_REFUSAL);
    if (a.refusal != CELLUMAQ_ACCEPTED) {
        a.first = list_of(d, list, list_length, CELLUMAQ_FIRST_FIGURE);
        a.second = list_of(d, list, list_length, CELLUMAQ_SECOND_FIGURE);
    }
    return a;
}

static inline struct cellumaq_answer cellumaq_ask_lookup_by(cellumaq_lookup_function *lookup_of,
                                                            const struct cellumaq_dataset *d, const uint64_t *corner)
{
    struct cellumaq_answer a = {0, 0, 0, 0, 0, 0, 0};

    a.count = lookup_of(d, corner, CELLUMAQ_COUNT);
    if (a.count != 0) {
        a.address = lookup_of(d, corner, CELLUMAQ_FOUND_ADDRESS);
        a.size = lookup_of(d, corner, CELLUMAQ_FOUND_SIZE);
        a.mask = lookup_of(d, corner, CELLUMAQ_FOUND_MASK);
    } else {
        a.refusal = lookup_of(d, corner, CELLUMAQ_REFUSAL);
    }
    if (a.refusal != CELLUMAQ_ACCEPTED) {
        a.first = lookup_of(d, corner, CELLUMAQ_FIRST_FIGURE);
        a.second = lookup_of(d, corner, CELLUMAQ_SECOND_FIGURE);
    }
    return a;
}

/* The list of a dataset whose index is an extensible array, and the lookup of one chunk. */
static inline struct cellumaq_answer cellumaq_ask_list(const struct cellumaq_dataset *d, uint8_t *list,
                                                       size_t list_length)
{
    return cellumaq_ask_list_by(cellumaq_list_dataset, d, list, list_length);
}

static inline struct cellumaq_answer cellumaq_ask_lookup(const struct cellumaq_dataset *d, const uint64_t *corner)
{
    return cellumaq_ask_lookup_by(cellumaq_lookup_dataset, d, corner);
}

/* The same where the index is a Fixed Array. */
static inline struct cellumaq_answer cellumaq_ask_fixed_list(const struct cellumaq_dataset *d, uint8_t *list,
                                                             size_t list_length)
{
    return cellumaq_ask_list_by(cellumaq_fixed_list_dataset, d, list, list_length);
}

static inline struct cellumaq_answer cellumaq_ask_fixed_lookup(const struct cellumaq_dataset *d,
                                                               const uint64_t *corner)
{
    return cellumaq_ask_lookup_by(cellumaq_fixed_lookup_dataset, d, corner);
}

/* Limits. A record's address and size are those that the array has: whether the chunk's bytes lie in the file isn't
 * tested. An array whose super block minimum isn't 2 or 4, or whose index block names data blocks of more elements than
 * a page, may be read otherwise than the format has it; the HDF5 library writes neither.
 *
 * Time, on a machine that tests a byte in 0.5 ns and reads an element in 23 ns at rank 1, 42 at rank 3, 470 at rank 32:
 * a call of cellumaq_lookup() tests the header, the index block, and at most one super block and one data block (of a
 * paged one its head and one page): under three times the file's bytes and the header, 2 ms for 1 MiB. A call of
 * cellumaq_list() for a file as HDF5 writes it takes a few ms per MiB. But a file can name its blocks again and again,
 * and each is tested and read each time: a hostile file's list takes a time that grows with the square of the file's
 * length. For 1 MiB fewer than 2^20 blocks are tested, together under 2^40 bytes, 10 minutes; and fewer than 2^39
 * elements are read, each twice: under 8 hours at rank 1, 13 at rank 3, 144 at rank 32; for 64 KiB divide by 256. No
 * element at or past the published count is read. Who must answer in time takes files of limited length, or calls from
 * a process that can be ended: one that is ended leaves nothing behind.
 *
 * The list of a Fixed Array tests each byte of the data block at most once and reads each element at most twice:
 * whatever a file has, the time grows with its length, not with the square. For 1 MiB it is under 60 ms at rank 1 and
 * 3, 500 at rank 32. The lookup tests the header and the data block, or the data block's head and one page.
 *
 * The functions that take a struct cellumaq_dataset make the calls that are said there, and store the shapes for each:
 * that takes 4 ns at rank 1, 30 at rank 3, 500 at rank 32.
 *
 * Stack. A list and a lookup need less than 8 KiB, by way of a struct cellumaq_dataset less than 10.
 */

#ifdef __cplusplus
}
#endif

#endif
