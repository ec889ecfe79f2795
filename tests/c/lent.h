/* Memory that is lent to a call: a slice of it, marked bytes around the slice, and on both sides a page that may not be
 * touched. */
#ifndef LENT_H
#define LENT_H

#include <stdint.h>
#include <stdio.h>
#include <stdlib.h>
#include <string.h>
#include <sys/mman.h>

enum { LENT_PAGE = 4096, LENT_MARKS = 64 };

/* Where in the memory a slice lies: behind the lower page, before the upper page, or between marks, at an odd
 * address. */
enum lent_where { LENT_LOW, LENT_HIGH, LENT_BETWEEN };

struct lent {
    uint8_t *low;
    size_t room;
    uint8_t *slice;
    size_t length;
};

static inline uint8_t lent_mark(const uint8_t *at)
{
    return (uint8_t)(0xc5 ^ ((uintptr_t)at * 29));
}

/* Room for that many bytes and marks on both sides. */
static inline void lent_reserve(struct lent *l, size_t length)
{
    size_t room = (length + 2 * LENT_MARKS + LENT_PAGE) / LENT_PAGE * LENT_PAGE;

    if (l->room >= room)
        return;
    if (l->room != 0)
        munmap(l->low - LENT_PAGE, l->room + 2 * LENT_PAGE);
    uint8_t *all = mmap(NULL, room + 2 * LENT_PAGE, PROT_NONE, MAP_PRIVATE | MAP_ANONYMOUS, -1, 0);
    if (all == MAP_FAILED || mprotect(all + LENT_PAGE, room, PROT_READ | PROT_WRITE) != 0) {
        fprintf(stderr, "no memory for a slice of %zu bytes\n", length);
        exit(1);
    }
    l->low = all + LENT_PAGE;
    l->room = room;
}

/* The marks that the memory has room for below and above the slice. */
static inline size_t lent_below(const struct lent *l)
{
    size_t space = (size_t)(l->slice - l->low);

    return space < LENT_MARKS ? space : LENT_MARKS;
}

static inline size_t lent_above(const struct lent *l)
{
    size_t space = l->room - (size_t)(l->slice - l->low) - l->length;

    return space < LENT_MARKS ? space : LENT_MARKS;
}

/* Puts a slice there and marks its surroundings. A slice without bytes that would lie between marks is NULL. */
static inline uint8_t *lent_put(struct lent *l, const uint8_t *bytes, size_t length, enum lent_where where)
{
    lent_reserve(l, length);
    l->slice = where == LENT_LOW ? l->low : where == LENT_HIGH ? l->low + l->room - length : l->low + LENT_MARKS - 1;
    l->length = length;
    if (length != 0)
        memcpy(l->slice, bytes, length);
    for (size_t i = 1; i <= lent_below(l); i++)
        l->slice[-(ptrdiff_t)i] = lent_mark(l->slice - i);
    for (size_t i = 0; i < lent_above(l); i++)
        l->slice[length + i] = lent_mark(l->slice + length + i);
    return length == 0 && where == LENT_BETWEEN ? NULL : l->slice;
}

static inline int lent_marks_stay(const struct lent *l)
{
    for (size_t i = 1; i <= lent_below(l); i++)
        if (l->slice[-(ptrdiff_t)i] != lent_mark(l->slice - i))
            return 0;
    for (size_t i = 0; i < lent_above(l); i++)
        if (l->slice[l->length + i] != lent_mark(l->slice + l->length + i))
            return 0;
    return 1;
}

/* Whether the slice is as it was put, and its surroundings too. */
static inline int lent_stays(const struct lent *l, const uint8_t *bytes)
{
    return lent_marks_stay(l) && (l->length == 0 || memcmp(l->slice, bytes, l->length) == 0);
}

#endif
