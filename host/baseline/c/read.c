/* Get and list. */
#include "store.h"

/* The file that the query asks for. */
static uint32_t file_asked(const uint8_t *m, size_t n, Query *q)
{
    Reading s;
    uint32_t answer = bl_read_settled(m, n, q, &s);
    return answer == DONE && !q->found ? NO_FILE : answer;
}

uint32_t baseline_get(const uint8_t *m, size_t n, const uint8_t *name, size_t name_length, uint32_t *reason,
                      size_t *place, size_t *offset, size_t *size)
{
    Query q;
    uint32_t answer = bl_admit(&q, n, name, name_length, reason, place) ? file_asked(m, n, &q) : INVALID;
    *offset = answer == DONE ? data_at(&q.file) : 0;
    *size = answer == DONE ? data_length_of(q.file.header) : 0;
    return answer;
}

uint32_t baseline_list(const uint8_t *m, size_t n, size_t index, size_t *name_offset, size_t *name_length,
                       size_t *size)
{
    Query q = {.index = index};
    uint32_t answer = file_asked(m, n, &q);
    *name_offset = answer == DONE ? q.file.at + 8 : 0;
    *name_length = answer == DONE ? q.file.name_length : 0;
    *size = answer == DONE ? data_length_of(q.file.header) : 0;
    return answer;
}
