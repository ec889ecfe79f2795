/* Nanoseconds per chunk of cellumaq_list beside the HDF5 library's own walk over the same index: one file, one run,
 * taking turns, the best of all rounds. The library writes the file here, to the path named: bench_hdf5 FILE. It reads
 * what it walks from the file; Cellumaq's list is given the file's bytes, and what reading them takes is measured
 * beside it. The library keeps structures that it has read, so the first walk in a file that was just opened and a
 * second one are told apart. The dataset is opened before each walk and closed behind it. */
#define _DEFAULT_SOURCE
#define H5_USE_110_API
#include <hdf5.h>
#include <inttypes.h>
#include <stdio.h>
#include <stdlib.h>

#include "call.h"
#include "cellumaq.h"
#include "clock.h"
#include "file.h"
#include "layout.h"

enum { CHUNKS = 1000000, ROUNDS = 10, COMPARED = 10 };

static const hsize_t chunk_length = 1, present_length = CHUNKS, maximum_length = H5S_UNLIMITED;
static const char *path;
static uint8_t list[24 * (size_t)CHUNKS]; /* a record of rank 1 has 24 bytes */
static uint8_t shapes[3][8];

/* Ends the program where something that isn't measured fails. */
static void need(int holds, const char *what)
{
    if (!holds) {
        printf("bench_hdf5: %s\n", what);
        exit(1);
    }
}

/* A line of 4 bytes a chunk, all of them there, in the newest format. */
static void write_file(void)
{
    hid_t access = H5Pcreate(H5P_FILE_ACCESS), creation = H5Pcreate(H5P_DATASET_CREATE);
    hid_t space = H5Screate_simple(1, &present_length, &maximum_length);

    H5Pset_libver_bounds(access, H5F_LIBVER_LATEST, H5F_LIBVER_LATEST);
    H5Pset_chunk(creation, 1, &chunk_length);
    H5Pset_alloc_time(creation, H5D_ALLOC_TIME_EARLY);
    hid_t file = H5Fcreate(path, H5F_ACC_TRUNC, H5P_DEFAULT, access);
    hid_t dataset = H5Dcreate2(file, "data", H5T_STD_I32LE, space, H5P_DEFAULT, creation, H5P_DEFAULT);
    need(dataset >= 0 && H5Dclose(dataset) >= 0 && H5Fclose(file) >= 0, "the file can't be written");
    H5Sclose(space);
    H5Pclose(creation);
    H5Pclose(access);
}

static hid_t opened(void)
{
    hid_t file = H5Fopen(path, H5F_ACC_RDONLY, H5P_DEFAULT);

    need(file >= 0, "the file can't be opened");
    return file;
}

/* The call for the dataset over the file's bytes. */
static struct call call_of(struct slice bytes)
{
    struct call c = {.file = bytes, .offset_size = 8, .length_size = 8, .element_bytes = 4, .rank = 1,
                     .order = CELLUMAQ_UNLIMITED_FIRST, .chunk = {shapes[0], 8}, .present = {shapes[1], 8},
                     .has_maximum = 1, .maximum = {shapes[2], 8}};
    hid_t file = opened(), dataset = H5Dopen2(file, "data", H5P_DEFAULT);
    H5O_info_t info;

    need(H5Oget_info(dataset, &info) >= 0, "the dataset can't be opened");
    struct chunk_index index = index_of(bytes.bytes, bytes.length, 8, 8, info.addr);
    need(index.kind == EXTENSIBLE_ARRAY, "the dataset has no extensible array");
    c.address = index.address;
    H5Dclose(dataset);
    H5Fclose(file);
    cellumaq_put_length(shapes[0], 0, chunk_length);
    cellumaq_put_length(shapes[1], 0, present_length);
    cellumaq_put_length(shapes[2], 0, CELLUMAQ_UNLIMITED);
    return c;
}

static double read_seconds(void)
{
    size_t length;
    double begin = now();
    uint8_t *bytes = read_all(path, &length);
    double end = now();

    free(bytes);
    return end - begin;
}

static double list_seconds(const struct call *c)
{
    double begin = now();
    uint64_t count = cellumaq_list(c->file.bytes, c->file.length, c->offset_size, c->length_size, c->address,
                                   c->element_bytes, c->order, c->rank, c->chunk.bytes, c->chunk.length,
                                   c->present.bytes, c->present.length, c->has_maximum, c->maximum.bytes,
                                   c->maximum.length, list, sizeof list, CELLUMAQ_COUNT);
    double end = now();

    need(count == CHUNKS, "the list has another number of chunks");
    return end - begin;
}

/* The library's walks: how many chunks each met, or -1. */
static int64_t count_chunks(hid_t dataset)
{
    hid_t space = H5Dget_space(dataset);
    hsize_t count = 0;
    herr_t done = H5Dget_num_chunks(dataset, space, &count);

    H5Sclose(space);
    return done < 0 ? -1 : (int64_t)count;
}

#if H5_VERSION_GE(1, 12, 3)
static uint8_t walked[sizeof list];

/* Stores a record as the list has it. */
static int store_chunk(const hsize_t *corner, unsigned mask, haddr_t address, hsize_t size, void *count)
{
    int64_t i = (*(int64_t *)count)++;
    uint64_t record[3] = {address, size | (uint64_t)mask << 32, *corner};

    if (i >= CHUNKS)
        return H5_ITER_ERROR;
    memcpy(walked + sizeof record * (size_t)i, record, sizeof record);
    return H5_ITER_CONT;
}

static int64_t iterate_chunks(hid_t dataset)
{
    int64_t count = 0;

    return H5Dchunk_iter(dataset, H5P_DEFAULT, store_chunk, &count) < 0 ? -1 : count;
}
#endif

static double walk_seconds(hid_t file, int64_t (*walk)(hid_t))
{
    hid_t dataset = H5Dopen2(file, "data", H5P_DEFAULT);
    double begin = now();
    int64_t count = walk(dataset);
    double end = now();

    H5Dclose(dataset);
    need(count == CHUNKS, "the library's walk met another number of chunks");
    return end - begin;
}

/* The list is the library's: all of it where the library can iterate over it; else some chunks, each by a walk. */
static void compare(void)
{
#if H5_VERSION_GE(1, 12, 3)
    need(memcmp(list, walked, sizeof list) == 0, "the library has another list");
#endif
    hid_t file = opened(), dataset = H5Dopen2(file, "data", H5P_DEFAULT);

    for (size_t i = 0; i < CHUNKS; i += CHUNKS / COMPARED) {
        hsize_t corner = cellumaq_record_offset(list, 1, i, 0), size = 0;
        haddr_t address = HADDR_UNDEF;
        unsigned mask = 1;

        need(corner == i && H5Dget_chunk_info_by_coord(dataset, &corner, &mask, &address, &size) >= 0 &&
             mask == cellumaq_record_mask(list, 1, i) && address == cellumaq_record_address(list, 1, i) &&
             size == cellumaq_record_chunk_size(list, 1, i), "the library has another chunk");
    }
    H5Dclose(dataset);
    H5Fclose(file);
}

static void keep_less(double *least, double seconds)
{
    if (seconds < *least)
        *least = seconds;
}

static const struct {
    const char *name;
    int64_t (*walk)(hid_t);
} walks[] = {
    {"H5Dget_num_chunks", count_chunks},
#if H5_VERSION_GE(1, 12, 3)
    {"H5Dchunk_iter", iterate_chunks},
#endif
};
enum { WALKS = sizeof walks / sizeof *walks };

static void print_walk(const char *name, const char *when, double seconds, double ours)
{
    printf("%-18s %-24s %10.1f %10.3f\n", name, when, 1e9 * seconds / CHUNKS, ours / seconds);
}

int main(int argc, char **argv)
{
    double ours = 1e9, reading = 1e9, first[WALKS], again[WALKS];
    size_t length;

    path = argc == 2 ? argv[1] : "bench_hdf5.h5";
    write_file();
    uint8_t *bytes = read_all(path, &length);
    struct call c = call_of((struct slice){bytes, length});
    for (int w = 0; w < WALKS; w++)
        first[w] = again[w] = 1e9;
    for (int round = 0; round < ROUNDS; round++) {
        keep_less(&reading, read_seconds());
        for (int w = 0; w < WALKS; w++) {
            hid_t file = opened();

            keep_less(&ours, list_seconds(&c));
            keep_less(&first[w], walk_seconds(file, walks[w].walk));
            keep_less(&again[w], walk_seconds(file, walks[w].walk));
            H5Fclose(file);
        }
    }
    compare();
    printf("HDF5 %d.%d.%d, %d chunks in a file of %zu bytes\n", H5_VERS_MAJOR, H5_VERS_MINOR, H5_VERS_RELEASE, CHUNKS,
           length);
    printf("%-18s %-24s %10s %10s\n", "walk", "", "ns/chunk", "list/walk");
    printf("%-18s %-24s %10.1f\n", "cellumaq_list", "over the file's bytes", 1e9 * ours / CHUNKS);
    printf("%-18s %-24s %10.1f\n", "", "with reading the file", 1e9 * (ours + reading) / CHUNKS);
    for (int w = 0; w < WALKS; w++) {
        print_walk(walks[w].name, "file just opened", first[w], ours);
        print_walk("", "a second time", again[w], ours);
    }
    free(bytes);
    return remove(path) != 0;
}
