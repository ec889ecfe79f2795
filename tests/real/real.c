/* Compares list and lookup with the HDF5 library on files that it writes here, into the folder named: real FOLDER. */
#define _DEFAULT_SOURCE
#define H5_USE_110_API
#include <hdf5.h>
#include <inttypes.h>

#include "cellumaq.h"
#include "layout.h"
#include "samples.h"
#include "test.h"

enum { RANK_MOST = 6, CHUNK_BYTES_MOST = 4096, CORNERS_MOST = 3000, NONE = -1 };

/* What a file is made of. A filtered dataset's chunks have several sizes and masks. */
struct archive {
    const char *name;
    size_t offset_size, length_size;
    int rank, unlimited; /* how many dimensions, and the one without an end; without one the index is a Fixed Array */
    hsize_t chunk[RANK_MOST], present[RANK_MOST], maximum[RANK_MOST];
    int filtered, chance; /* each chunk is written with a chance of so many in 16 */
    uint64_t step;        /* of so many chunks one may be written */
    hsize_t shrunk;       /* if not 0, the unlimited or the first dimension gets that length, and then its own again */
};

static const struct archive archives[] = {
    {.name = "line", 8, 8, 1, 0, {7}, {7 * 900}, {0}, .chance = 16, .step = 1},
    {.name = "line with gaps", 8, 8, 1, 0, {5}, {5 * 3000 - 2}, {0}, .chance = 5, .step = 1},
    {.name = "filtered line with gaps", 8, 8, 1, 0, {5}, {5 * 3000}, {0}, .filtered = 1, .chance = 5, .step = 1},
    {.name = "pages", 8, 8, 1, 0, {1}, {300000}, {0}, .chance = 4, .step = 397},
    {.name = "filtered pages", 8, 8, 1, 0, {2}, {600000}, {0}, .filtered = 1, .chance = 8, .step = 511},
    {.name = "far pages", 4, 4, 1, 0, {1}, {3000000}, {0}, .chance = 8, .step = 60001},
    {.name = "rows", 8, 8, 2, 0, {3, 4}, {300, 19}, {0, 21}, .chance = 9, .step = 1},
    {.name = "filtered columns", 8, 8, 2, 1, {3, 4}, {10, 600}, {12, 0}, .filtered = 1, .chance = 9, .step = 1},
    {.name = "columns in a file of 2 bytes an offset", 2, 2, 2, 1, {2, 2}, {5, 60}, {9, 0}, .chance = 6, .step = 1},
    {.name = "planes", 4, 8, 3, 0, {1, 2, 2}, {120, 5, 7}, {0, 6, 9}, .chance = 8, .step = 1},
    {.name = "filtered, unlimited in the middle", 8, 4, 3, 1, {2, 1, 3}, {5, 150, 7}, {8, 0, 7}, .filtered = 1,
     .chance = 7, .step = 1},
    {.name = "unlimited last", 8, 8, 3, 2, {2, 2, 2}, {3, 4, 400}, {4, 9, 0}, .chance = 3, .step = 1},
    {.name = "rank 4", 8, 8, 4, 2, {1, 2, 1, 2}, {2, 3, 90, 5}, {3, 4, 0, 6}, .filtered = 1, .chance = 10, .step = 1},
    {.name = "rank 6", 4, 4, 6, 5, {1, 2, 1, 2, 1, 2}, {2, 3, 1, 2, 2, 80}, {2, 3, 2, 4, 2, 0}, .chance = 6, .step = 1},
    {.name = "shrunk and regrown", 8, 8, 2, 0, {2, 3}, {400, 8}, {0, 8}, .chance = 9, .step = 1, .shrunk = 33},
    {.name = "one chunk", 8, 8, 1, 0, {100}, {1}, {0}, .chance = 16, .step = 1},
    {.name = "fixed line", 8, 8, 1, NONE, {7}, {7 * 900}, {7 * 1024}, .chance = 16, .step = 1},
    {.name = "fixed pages with gaps", 8, 8, 1, NONE, {5}, {5 * 3000 - 2}, {5 * 3077}, .chance = 5, .step = 1},
    {.name = "fixed pages, the last of one chunk", 8, 8, 1, NONE, {1}, {1025}, {1025}, .chance = 15, .step = 1},
    {.name = "filtered fixed pages", 8, 8, 1, NONE, {2}, {12000}, {12000}, .filtered = 1, .chance = 8, .step = 97},
    {.name = "fixed pages, most clear", 4, 4, 1, NONE, {1}, {100000}, {200000}, .chance = 12, .step = 20011},
    {.name = "fixed rows", 8, 8, 2, NONE, {3, 4}, {300, 19}, {330, 21}, .chance = 9, .step = 1},
    {.name = "filtered fixed columns", 8, 2, 2, NONE, {3, 4}, {10, 600}, {12, 601}, .filtered = 1, .chance = 9,
     .step = 1},
    {.name = "fixed, in a file of 2 bytes an offset", 2, 2, 2, NONE, {2, 2}, {5, 60}, {9, 62}, .chance = 6, .step = 1},
    {.name = "filtered fixed planes", 4, 8, 3, NONE, {1, 2, 2}, {120, 5, 7}, {121, 6, 9}, .filtered = 1, .chance = 8,
     .step = 1},
    {.name = "fixed rank 6", 4, 4, 6, NONE, {1, 2, 1, 2, 1, 2}, {2, 3, 1, 2, 2, 80}, {2, 3, 2, 4, 2, 99}, .chance = 6,
     .step = 1},
    {.name = "fixed, shrunk and regrown", 8, 8, 2, NONE, {2, 3}, {400, 8}, {410, 8}, .chance = 9, .step = 1,
     .shrunk = 33},
};
static const struct archive *made;
static const char *folder;
static char path[1024];

/* So many corners there are, and the n-th of them, the last dimension fastest. */
static uint64_t corners(const struct archive *a)
{
    uint64_t n = 1;

    for (int d = 0; d < a->rank; d++)
        n *= (a->present[d] + a->chunk[d] - 1) / a->chunk[d];
    return n;
}

static void corner_of(const struct archive *a, uint64_t n, hsize_t corner[RANK_MOST])
{
    for (int d = a->rank - 1; d >= 0; d--) {
        uint64_t count = (a->present[d] + a->chunk[d] - 1) / a->chunk[d];

        corner[d] = n % count * a->chunk[d];
        n /= count;
    }
}

static hid_t created(const struct archive *a, hid_t file)
{
    hsize_t maximum[RANK_MOST];
    hid_t plist = H5Pcreate(H5P_DATASET_CREATE);

    memcpy(maximum, a->maximum, sizeof maximum);
    if (a->unlimited != NONE)
        maximum[a->unlimited] = H5S_UNLIMITED;
    H5Pset_chunk(plist, a->rank, a->chunk);
    if (a->filtered) {
        H5Pset_shuffle(plist);
        H5Pset_deflate(plist, 6);
    }
    hid_t space = H5Screate_simple(a->rank, a->present, maximum);
    hid_t dataset = H5Dcreate2(file, "data", H5T_STD_I32LE, space, H5P_DEFAULT, plist, H5P_DEFAULT);
    H5Sclose(space);
    H5Pclose(plist);
    return dataset;
}

/* Writes one chunk's elements by way of the filters, or its bytes as they are, with a mask. */
static int write_one(const struct archive *a, hid_t dataset, const hsize_t corner[RANK_MOST])
{
    uint8_t bytes[CHUNK_BYTES_MOST];
    hsize_t count[RANK_MOST];
    size_t length = 4;
    int done;

    for (int d = 0; d < a->rank; d++) {
        length *= a->chunk[d];
        count[d] = a->present[d] - corner[d] < a->chunk[d] ? a->present[d] - corner[d] : a->chunk[d];
    }
    for (size_t i = 0; i < length; i++)
        bytes[i] = (uint8_t)random_below(256);
    if (random_below(2) == 0) {
        size_t stored = a->filtered ? 1 + random_below((uint32_t)length) : length;

        return H5Dwrite_chunk(dataset, H5P_DEFAULT, a->filtered ? random_below(4) : 0, corner, stored, bytes) >= 0;
    }
    hid_t space = H5Dget_space(dataset), memory = H5Screate_simple(a->rank, count, NULL);
    H5Sselect_hyperslab(space, H5S_SELECT_SET, corner, NULL, count, NULL);
    done = H5Dwrite(dataset, H5T_STD_I32LE, memory, space, H5P_DEFAULT, bytes) >= 0;
    H5Sclose(memory);
    H5Sclose(space);
    return done;
}

/* The chunks in an order of their own. */
static int write_chunks(const struct archive *a, hid_t dataset)
{
    uint64_t n = corners(a), stride = n % 7919 == 0 ? 1 : 7919;
    hsize_t corner[RANK_MOST];

    for (uint64_t i = 0, k = n / 2; i < n; i++, k = (k + stride) % n) {
        if (k % a->step != 0 || random_below(16) >= (uint32_t)a->chance)
            continue;
        corner_of(a, k, corner);
        if (!write_one(a, dataset, corner))
            return 0;
    }
    if (a->shrunk != 0) {
        hsize_t less[RANK_MOST];

        memcpy(less, a->present, sizeof less);
        less[a->unlimited != NONE ? a->unlimited : 0] = a->shrunk;
        if (H5Dset_extent(dataset, less) < 0 || H5Dset_extent(dataset, a->present) < 0)
            return 0;
        corner_of(a, n - 1, corner);
        return write_one(a, dataset, corner);
    }
    return 1;
}

static hid_t created_file(const struct archive *a)
{
    hid_t creation = H5Pcreate(H5P_FILE_CREATE), access = H5Pcreate(H5P_FILE_ACCESS);

    H5Pset_sizes(creation, a->offset_size, a->length_size);
    H5Pset_libver_bounds(access, H5F_LIBVER_LATEST, H5F_LIBVER_LATEST);
    hid_t file = H5Fcreate(path, H5F_ACC_TRUNC, creation, access);
    H5Pclose(access);
    H5Pclose(creation);
    return file;
}

static uint8_t *read_archive(size_t *length)
{
    FILE *stream = fopen(path, "rb");

    if (stream == NULL || fseek(stream, 0, SEEK_END) != 0)
        return NULL;
    *length = (size_t)ftell(stream);
    uint8_t *bytes = malloc(*length + 1);
    rewind(stream);
    if (bytes != NULL && fread(bytes, 1, *length, stream) != *length)
        *length = 0;
    fclose(stream);
    return bytes;
}

/* The dataset, from what the library says of it; its index from the object header. */
static struct cellumaq_dataset described(const struct archive *a, hid_t dataset, const uint8_t *file, size_t length)
{
    struct cellumaq_dataset d = {.file = file, .file_length = length, .offset_size = a->offset_size,
                                 .length_size = a->length_size, .element_bytes = 4,
                                 .order = CELLUMAQ_UNLIMITED_FIRST};
    hid_t space = H5Dget_space(dataset);
    hsize_t present[RANK_MOST], maximum[RANK_MOST];
    H5O_info_t info;

    d.rank = (uint64_t)H5Sget_simple_extent_dims(space, present, maximum);
    for (size_t i = 0; i < d.rank; i++) {
        d.chunk[i] = a->chunk[i];
        d.present[i] = present[i];
        d.maximum[i] = maximum[i] == H5S_UNLIMITED ? CELLUMAQ_UNLIMITED : maximum[i];
    }
    H5Sclose(space);
    H5Oget_info(dataset, &info);
    struct chunk_index index = index_of(file, length, a->offset_size, a->length_size, info.addr);
    CHECK(index.kind == (a->unlimited == NONE ? FIXED_ARRAY : EXTENSIBLE_ARRAY), "%s: index of kind %d", a->name,
          index.kind);
    d.address = index.address;
    return d;
}

static struct cellumaq_answer ask_list_of(const struct archive *a, const struct cellumaq_dataset *d, uint8_t *list,
                                          size_t length)
{
    return a->unlimited == NONE ? cellumaq_ask_fixed_list(d, list, length) : cellumaq_ask_list(d, list, length);
}

static struct cellumaq_answer ask_lookup_of(const struct archive *a, const struct cellumaq_dataset *d,
                                            const uint64_t *corner)
{
    return a->unlimited == NONE ? cellumaq_ask_fixed_lookup(d, corner) : cellumaq_ask_lookup(d, corner);
}

/* The list is the library's, chunk by chunk. The library of version 1.10 has other corners where the unlimited
 * dimension isn't the first. */
static void compare_list(const struct archive *a, hid_t dataset, const struct cellumaq_dataset *d)
{
    hid_t space = H5Dget_space(dataset);
    hsize_t chunks = 0, corner[RANK_MOST], size;
    unsigned mask;
    haddr_t address;

    H5Dget_num_chunks(dataset, space, &chunks);
    uint8_t *list = malloc((chunks + 1) * cellumaq_record_size(d->rank));
    struct cellumaq_answer answer = ask_list_of(a, d, list, chunks * cellumaq_record_size(d->rank));

    CHECK(chunks != 0 && answer.refusal == 0 && answer.count == chunks,
          "%s: refusal %" PRIu64 ", %" PRIu64 " chunks, not %" PRIu64, a->name, answer.refusal, answer.count,
          (uint64_t)chunks);
    for (size_t i = 0; i < answer.count; i++) {
        CHECK(H5Dget_chunk_info(dataset, space, i, corner, &mask, &address, &size) >= 0,
              "%s: the library has no chunk %zu", a->name, i);
        CHECK(address == cellumaq_record_address(list, d->rank, i) &&
                  size == cellumaq_record_chunk_size(list, d->rank, i) &&
                  mask == cellumaq_record_mask(list, d->rank, i),
              "%s: the library has another chunk %zu", a->name, i);
        for (size_t k = 0; k < d->rank && a->unlimited <= 0; k++)
            CHECK(corner[k] == cellumaq_record_offset(list, d->rank, i, k),
                  "%s: the library has another corner of chunk %zu", a->name, i);
    }
    printf("  %s: index at %" PRIu64 " of %zu bytes, %" PRIu64 " of %" PRIu64 " chunks\n", a->name, d->address,
           d->file_length, answer.count, corners(a));
    free(list);
    H5Sclose(space);
}

/* The chunk of a corner, by the library: whether it is there, its mask, and its bytes where the lookup says. */
static void compare_lookup(const struct archive *a, hid_t dataset, const struct cellumaq_dataset *d,
                           const hsize_t corner[RANK_MOST])
{
    uint8_t bytes[CHUNK_BYTES_MOST];
    uint64_t offsets[RANK_MOST];
    hsize_t size = 0;
    uint32_t mask = 0;

    for (size_t i = 0; i < d->rank; i++)
        offsets[i] = corner[i];
    struct cellumaq_answer answer = ask_lookup_of(a, d, offsets);

    CHECK(answer.refusal == 0, "%s: a lookup is refused with %" PRIu64, a->name, answer.refusal);
    if (H5Dget_chunk_storage_size(dataset, corner, &size) < 0)
        size = 0;
    CHECK(answer.size == size && answer.count == (size != 0), "%s: the library has %" PRIu64 " bytes of a chunk",
          a->name, (uint64_t)size);
    if (size == 0 || answer.count == 0 || size > sizeof bytes)
        return;
    CHECK(H5Dread_chunk(dataset, H5P_DEFAULT, corner, &mask, bytes) >= 0, "%s: the library can't read a chunk",
          a->name);
    CHECK(answer.mask == mask, "%s: the library has mask %" PRIu32, a->name, mask);
    CHECK(answer.address + size <= d->file_length && memcmp(d->file + answer.address, bytes, size) == 0,
          "%s: the chunk's bytes are elsewhere", a->name);
}

/* All corners of the present shape, or of very many a part; and all that may be written. */
static void compare_lookups(const struct archive *a, hid_t dataset, const struct cellumaq_dataset *d)
{
    uint64_t n = corners(a), others = n <= CORNERS_MOST ? 1 : n / CORNERS_MOST;
    hsize_t corner[RANK_MOST];

    for (uint64_t i = 0; i < n; i += others) {
        corner_of(a, i, corner);
        compare_lookup(a, dataset, d, corner);
    }
    for (uint64_t i = 0; i < n && a->step > 1; i += a->step) {
        corner_of(a, i, corner);
        compare_lookup(a, dataset, d, corner);
    }
}

/* The file stays open: the library can't open a dataset again that is unlimited in a file of 2 or 4 bytes a length. */
static void compare(void)
{
    size_t length = 0;

    snprintf(path, sizeof path, "%s/real.h5", folder);
    hid_t file = created_file(made), dataset = file < 0 ? -1 : created(made, file);
    int done = dataset >= 0 && write_chunks(made, dataset) && H5Fflush(file, H5F_SCOPE_GLOBAL) >= 0;
    uint8_t *bytes = read_archive(&length);

    CHECK(done && bytes != NULL, "%s: cannot write and read %s", made->name, path);
    if (done && bytes != NULL) {
        struct cellumaq_dataset d = described(made, dataset, bytes, length);

        compare_list(made, dataset, &d);
        compare_lookups(made, dataset, &d);
    }
    H5Dclose(dataset);
    H5Fclose(file);
    free(bytes);
}

int main(int argc, char **argv)
{
    char name[128];

    folder = argc == 2 ? argv[1] : ".";
    H5Eset_auto2(H5E_DEFAULT, NULL, NULL);
    for (size_t i = 0; i < sizeof archives / sizeof *archives; i++) {
        made = &archives[i];
        snprintf(name, sizeof name, "real: %s", made->name);
        test_run(name, compare);
    }
    remove(path);
    return test_summary();
}
