/* "Move of head X, next record Y", and the sweep. */
#include "store.h"

/* CLEAN to START, by one bit at a time: no other magic stands between. */
void bl_to_start(Flash *f, size_t at)
{
    if (f->m[at] == 0xA0)
        program(f, at, 0x80);
    program(f, at, 0x00);
}

/* (c) the second byte of whatever looks like a head or a record in X's data goes. */
static void clean(Flash *f, const Record *x)
{
    size_t a = data_at(x), end = a + data_length_of(x->header);
    for (; a + 1 < end; a += 8) {
        Header h = word_at(f->m, a);
        if (high_of(h) == 0x5A && (is_mark(h) || magic_of(h) == RECORD))
            program(f, a + 1, 0x00);
    }
}

/* (c) cleans, (d) erases, (e) makes Y START, (f) voids X's magic. */
void bl_close(Flash *f, size_t n, const Record *x, const Record *y)
{
    size_t from = floor_of(x->at), to = y->turned ? n : floor_of(y->at), a;
    clean(f, x);
    for (a = from; a < to; a += SECTOR)
        erase(f, a);
    bl_to_start(f, y->at);
    if (from == to)
        program(f, x->at + 1, 0x00);
}

typedef enum { MOVED, NO_PLACE, ALL_DEAD } Move;

/* (a) copies a file; false if it doesn't fit. */
static bool copied(Flash *f, Place *p, const Record *x)
{
    const uint8_t *m = f->m;
    Content content = {m + x->at + 8, m + data_at(x), x->name_length, data_length_of(x->header)};
    Spot spot;
    if (!bl_fit(p, x->size, &spot))
        return false;
    bl_write(f, x, spot, &content);
    return true;
}

/* One move, of the record at the head. In a settled image every file is live, and no move changes another file. */
static Move move(Flash *f, Place *p)
{
    Cursor c = bl_cursor(p->length, p->head);
    Record x, y;
    bl_next(f->m, p->length, &c, &x);
    if (is_file(&x) && !copied(f, p, &x))
        return NO_PLACE;
    if (is_cut(f))
        return MOVED;
    if (bl_next(f->m, p->length, &c, &y) != A_RECORD)
        return ALL_DEAD;
    program(f, y.at, 0xA0);
    bl_close(f, p->length, &x, &y);
    bl_move_head(p, &y);
    return MOVED;
}

uint32_t baseline_sweep(uint8_t *m, size_t n, size_t allowance, size_t *moves, size_t *live, size_t *dead, size_t *blank, size_t *lost,
                        size_t *steps)
{
    Flash f = {m, allowance, 0};
    Space space = {live, dead, blank, lost};
    Query q = nothing();
    Reading s;
    Move made = MOVED;
    uint32_t answer;
    *moves = *steps = 0;
    tell_nothing(&space);
    answer = bl_read_settled(m, n, &q, &s);
    if (answer != DONE)
        return answer;
    while (*moves < 5 && *moves < s.records) {
        made = move(&f, &s.place);
        if (made != MOVED || is_cut(&f))
            break;
        ++*moves;
    }
    if (made == NO_PLACE && *moves == 0)
        return NO_ROOM;
    if (!is_cut(&f))
        bl_tell_chain(m, n, s.place.head, &space);
    return answer_of(&f, steps);
}
