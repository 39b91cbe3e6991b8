/* "Chain and tail T": what stands at a place of the chain. */
#include "store.h"

Cursor bl_cursor(size_t n, size_t head)
{
    Cursor c = {head, n, floor_of(head), false, false, 0};
    return c;
}

/* The chain goes on at 0. It turns once. */
static void turn(Cursor *c)
{
    c->turn = c->at;
    c->at = 0;
    c->end = c->room;
    c->room = 0;
    c->turned = true;
}

/* The size of a record with this header, or 0 if there is none that ends in time. */
static size_t size_at(const uint8_t *m, size_t n, const Cursor *c, Header h, size_t *name_length)
{
    unsigned magic = magic_of(h);
    size_t before;
    if (torn(h)) {
        *name_length = 0;
        return c->end - c->at >= 16 ? 16 : 0;
    }
    if (status_of(h) == ERASED || !(magic == RECORD || magic == START || magic == CLEAN))
        return 0;
    if (!name_end(m, n, c->at, h, name_length, &before))
        return 0;
    if (before > c->end - c->at || data_length_of(h) > c->end - c->at - before)
        return 0;
    return before + up8(data_length_of(h));
}

static Step record_at(const uint8_t *m, size_t n, Cursor *c, Header h, Record *r)
{
    size_t name_length, size = size_at(m, n, c, h, &name_length);
    if (size == 0)
        return A_BREACH;
    r->at = c->at;
    r->size = size;
    r->name_length = name_length;
    r->header = h;
    r->turned = c->turned;
    c->at += size;
    c->held = unfinished(r);
    return A_RECORD;
}

/* As bl_next, whatever stands there. */
Step bl_next_thing(const uint8_t *m, size_t n, Cursor *c, Record *r)
{
    for (;;) {
        Header h;
        if (c->at == c->end) {
            if (c->room == 0)
                return THE_TAIL;
            turn(c);
        }
        h = word_at(m, c->at);
        if (h == BLANK)
            return THE_TAIL;
        if (c->held)
            return A_BREACH;
        if (torn_wrap(h)) {
            bool rest_blank = h >> 24 == BLANK >> 24 && is_blank(m, c->at + 8, n);
            return c->room > 0 && rest_blank ? A_TORN_WRAP : A_BREACH;
        }
        if (reserved_byte_of(h) != 0xFF)
            return A_BREACH;
        if (magic_of(h) != WRAP)
            return record_at(m, n, c, h, r);
        if (status_of(h) != WRAP_STATUS || c->room == 0)
            return A_BREACH;
        turn(c);
    }
}
