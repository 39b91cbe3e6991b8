/* "Reading an image": the head. */
#include "store.h"

/* The walk steps over a record of this header at p, if it has a name and ends by N. */
static bool walked(size_t p, Header h)
{
    unsigned magic = magic_of(h);
    return status_of(h) != ERASED && (magic == RECORD || (magic == CLEAN && p == 0));
}

/* The end of the record at p; p itself if it has no name, or ends past N. */
static size_t walk_over(const uint8_t *m, size_t n, size_t p, Header h)
{
    size_t length, before, data;
    if (!name_end(m, n, p, h, &length, &before))
        return p;
    data = p + before;
    return data <= n && data_length_of(h) <= n - data ? data + up8(data_length_of(h)) : p;
}

/* Where the search begins: at the first place that is no record. */
static size_t walk(const uint8_t *m, size_t n)
{
    size_t p = 0, next;
    while (p < n) {
        Header h = word_at(m, p);
        if (!is_plain(h) && torn(h))
            return p + 8;
        next = is_plain(h) || walked(p, h) ? walk_over(m, n, p, h) : p;
        if (next == p)
            break;
        p = next;
    }
    return p;
}

/* The first START or CLEAN from `from` on, or n. FF is neither; the first stretch of FF is noted. */
static size_t search(const uint8_t *m, size_t n, size_t from, Stretch *blank)
{
    size_t a = first_written(m, from, n);
    blank->from = from;
    blank->to = a;
    while (a < n) {
        uint64_t word = word_at(m, a);
        if (word == BLANK)
            a = first_written(m, a, n);
        else if (is_mark(word))
            break;
        else
            a += 8;
    }
    return a;
}

uint32_t bl_head(const uint8_t *m, size_t n, size_t *head, Stretch *blank)
{
    unsigned first = magic_of(word_at(m, 0));
    size_t a;
    *head = 0;
    blank->from = blank->to = 0;
    if (first == START)
        return DONE;
    if (first == WRAP)
        return BROKEN;
    a = search(m, n, walk(m, n), blank);
    if (a < n) {
        *head = a;
        return first == CLEAN && magic_of(word_at(m, a)) == CLEAN ? BROKEN : DONE;
    }
    return first == CLEAN ? DONE : NO_HEAD;
}
