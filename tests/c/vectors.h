/* Lists of questions and answers, line by line, in the form that tests/data/README.md gives. */
#ifndef VECTORS_H
#define VECTORS_H

#include <errno.h>
#include <inttypes.h>
#include <stdlib.h>
#include <string.h>

#include "calls.h"

enum { VECTOR_RANK = 40, VECTOR_NAME = 64 };

/* A question that has been read, its kind without the f of a Fixed Array's. The slices of the call point into it. */
struct question {
    char kind[VECTOR_NAME];
    struct call call;
    uint64_t room; /* of a list, in records */
    struct slice corner;
    uint8_t shapes[4][8 * VECTOR_RANK];
    uint8_t *file; /* free it */
};

static inline void vector_wrong(const char *what, const char *name)
{
    fprintf(stderr, "cannot read %s: %s\n", what, name);
    exit(1);
}

/* The next word of a line. */
static inline char *vector_word(char **line)
{
    char *word = *line + strspn(*line, " \n"), *end = word + strcspn(word, " \n");

    *line = *end != 0 ? end + 1 : end;
    *end = 0;
    if (*word == 0)
        vector_wrong("a word", "the line ends");
    return word;
}

static inline uint64_t vector_number(char **line)
{
    char *word = vector_word(line), *end;

    errno = 0;
    uint64_t number = strtoull(word, &end, 10);
    if (errno != 0 || *end != 0 || *word < '0' || *word > '9')
        vector_wrong("a number", word);
    return number;
}

static inline struct slice vector_shape(char **line, uint64_t rank, uint8_t *bytes)
{
    if (rank > VECTOR_RANK)
        vector_wrong("a shape", "the rank is too large");
    for (size_t d = 0; d < rank; d++)
        cellumaq_put_length(bytes, d, vector_number(line));
    return (struct slice){bytes, 8 * rank};
}

/* The bytes of the file that a question names, beside the list of questions. */
static inline uint8_t *vector_file_named(const char *questions, const char *name, size_t *length)
{
    char path[1024];
    const char *slash = strrchr(questions, '/');
    int folder = slash == NULL ? 0 : (int)(slash - questions) + 1;

    snprintf(path, sizeof path, "%.*s%s", folder, questions, name);
    FILE *stream = fopen(path, "rb");
    if (stream == NULL || fseek(stream, 0, SEEK_END) != 0)
        vector_wrong("the file", path);
    *length = (size_t)ftell(stream);
    uint8_t *bytes = malloc(*length + 1);
    rewind(stream);
    if (bytes == NULL || fread(bytes, 1, *length, stream) != *length)
        vector_wrong("the file", path);
    fclose(stream);
    return bytes;
}

static inline unsigned vector_digit(char c)
{
    const char *digits = "0123456789abcdef", *found = c == 0 ? NULL : strchr(digits, c);

    if (found == NULL)
        vector_wrong("hexadecimal digits", "there is another character");
    return (unsigned)(found - digits);
}

/* A file: hexadecimal digits, `-` without bytes, or `@` and a name. */
static inline struct slice vector_file(char **line, const char *questions, uint8_t **owned)
{
    char *word = vector_word(line);
    size_t length = strcmp(word, "-") == 0 ? 0 : strlen(word) / 2;

    if (*word == '@') {
        *owned = vector_file_named(questions, word + 1, &length);
    } else {
        *owned = malloc(length + 1);
        for (size_t i = 0; i < length; i++)
            (*owned)[i] = (uint8_t)(vector_digit(word[2 * i]) * 16 + vector_digit(word[2 * i + 1]));
    }
    return (struct slice){*owned, length};
}

/* The sizes, address, element bytes, order and shapes of a list or a lookup. */
static inline void vector_call(char **line, struct question *q)
{
    struct call *c = &q->call;

    c->element_bytes = vector_number(line);
    c->order = strcmp(vector_word(line), "U") == 0;
    c->rank = vector_number(line);
    c->chunk = vector_shape(line, c->rank, q->shapes[0]);
    c->present = vector_shape(line, c->rank, q->shapes[1]);
    c->has_maximum = vector_number(line);
    c->maximum = c->has_maximum != 0 ? vector_shape(line, c->rank, q->shapes[2]) : (struct slice){NULL, 0};
}

/* Before the name of a question about a Fixed Array stands an f. */
static inline int vector_is_fixed(const char *kind)
{
    return strcmp(kind, "fheader") == 0 || strcmp(kind, "flist") == 0 || strcmp(kind, "flookup") == 0;
}

static inline void vector_question(char *line, const char *questions, struct question *q)
{
    const char *kind = vector_word(&line);

    memset(&q->call, 0, sizeof q->call);
    q->call.is_fixed = vector_is_fixed(kind);
    snprintf(q->kind, sizeof q->kind, "%s", kind + q->call.is_fixed);
    if (strcmp(q->kind, "checksum") != 0) {
        q->call.offset_size = vector_number(&line);
        q->call.length_size = vector_number(&line);
        q->call.address = vector_number(&line);
    }
    if (strcmp(q->kind, "list") == 0 || strcmp(q->kind, "lookup") == 0)
        vector_call(&line, q);
    if (strcmp(q->kind, "list") == 0 || strcmp(q->kind, "spans") == 0)
        q->room = vector_number(&line);
    if (strcmp(q->kind, "lookup") == 0)
        q->corner = vector_shape(&line, q->call.rank, q->shapes[3]);
    q->call.file = vector_file(&line, questions, &q->file);
}

typedef void vector_ask(const struct question *q, const char *answer, const char *what);

/* Hands each question of a kind to `ask`, with its answer without the line's end; how many there were. Both lists must
 * have as many lines. */
static inline unsigned long vector_replay(const char *questions, const char *answers, const char *kind,
                                          vector_ask *ask)
{
    FILE *asked = fopen(questions, "r"), *answered = fopen(answers, "r");
    char *line = NULL, *answer = NULL, what[256];
    size_t line_room = 0, answer_room = 0;
    unsigned long number = 0, replayed = 0;
    struct question q;

    if (asked == NULL || answered == NULL)
        vector_wrong("the list", asked == NULL ? questions : answers);
    for (;;) {
        int more = getline(&line, &line_room, asked) > 0, more_answers = getline(&answer, &answer_room, answered) > 0;

        number++;
        CHECK(more == more_answers, "%s has other lines than %s", questions, answers);
        if (!more || !more_answers)
            break;
        if (strncmp(line, kind, strlen(kind)) != 0 || line[strlen(kind)] != ' ' || strncmp(answer, "outside", 7) == 0)
            continue;
        answer[strcspn(answer, "\n")] = 0;
        snprintf(what, sizeof what, "%s line %lu", questions, number);
        vector_question(line, questions, &q);
        ask(&q, answer, what);
        free(q.file);
        replayed++;
    }
    free(line);
    free(answer);
    fclose(asked);
    fclose(answered);
    return replayed;
}

#endif
