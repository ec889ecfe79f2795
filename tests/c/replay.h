/* Replays lists of questions and answers (vectors.h) through the calls and by way of the struct, and compares the
 * answers as lines. */
#ifndef REPLAY_H
#define REPLAY_H

#include "described.h"
#include "vectors.h"

/* The lists. */
static const char *questions, *answers;

/* Replays the questions of a kind, of which there must be some. */
static inline void replay(const char *kind, vector_ask *ask)
{
    CHECK(vector_replay(questions, answers, kind, ask) != 0, "%s has no %s", questions, kind);
}

/* Whether the answer is a refusal; then the call must have it. */
static inline int is_refused(struct cellumaq_answer a, const char *answer, const char *what)
{
    uint64_t refusal, first, second;

    if (sscanf(answer, "refused %" SCNu64 " %" SCNu64 " %" SCNu64, &refusal, &first, &second) != 3)
        return 0;
    check_refused(a, refusal, first, second, what);
    return 1;
}

/* Whether a structure ends behind the file; then the call must say so. */
static inline int is_past_end(struct cellumaq_answer a, const struct call *c, uint64_t start, uint64_t size,
                              const char *what)
{
    uint64_t length = c->file.length;

    if (size <= length && start <= length - size)
        return 0;
    check_refused(a, CELLUMAQ_REFUSED_PAST_END, start > UINT64_MAX - size ? UINT64_MAX : start + size, length, what);
    return 1;
}

/* An answer as a line; free it. */
static inline char *list_line(struct cellumaq_answer a, const uint8_t *records, size_t rank)
{
    char *text = NULL;
    size_t length;
    FILE *line = open_memstream(&text, &length);

    if (a.refusal != 0)
        fprintf(line, "refused %" PRIu64 " %" PRIu64 " %" PRIu64, a.refusal, a.first, a.second);
    else
        fprintf(line, "ok %" PRIu64, a.count);
    for (size_t i = 0; i < a.count; i++) {
        fprintf(line, " %" PRIu64 ",%u,%u", cellumaq_record_address(records, rank, i),
                cellumaq_record_chunk_size(records, rank, i), cellumaq_record_mask(records, rank, i));
        for (size_t d = 0; d < rank; d++)
            fprintf(line, ",%" PRIu64, cellumaq_record_offset(records, rank, i, d));
    }
    fclose(line);
    return text;
}

/* Behind the last whole record a list has some bytes more, sometimes; a room that no answer here needs is cut down. */
static inline void check_list_line(const struct question *q, const char *answer, const char *what)
{
    size_t record = cellumaq_record_size(q->call.rank), room = q->room < 4096 ? q->room : 4096;
    size_t length = room * record + strlen(answer) % record;
    uint8_t *records = malloc(length + 1);
    struct cellumaq_answer a = ask_list(&q->call, length, records, what);
    char *line = list_line(a, records, q->call.rank);

    CHECK(strcmp(line, answer) == 0, "%s: %.200s, not %.200s", what, line, answer);
    check_described_list(&q->call, length, what);
    free(line);
    free(records);
}

static inline void check_lookup_line(const struct question *q, const char *answer, const char *what)
{
    struct cellumaq_answer a = ask_lookup(&q->call, q->corner, what);
    char line[128];

    if (a.refusal != 0)
        snprintf(line, sizeof line, "refused %" PRIu64 " %" PRIu64 " %" PRIu64, a.refusal, a.first, a.second);
    else
        snprintf(line, sizeof line, "ok %" PRIu64 " %" PRIu64 " %" PRIu64 " %" PRIu64, a.count, a.address, a.size,
                 a.mask);
    CHECK(strcmp(line, answer) == 0, "%s: %s, not %s", what, line, answer);
    check_described_lookup(&q->call, q->corner, what);
}

#endif
