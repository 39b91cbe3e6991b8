/* "What mount repairs, in this order". No repair changes what the reading said of the rest, so nothing is read again. */
#include "store.h"

/* Erases the sectors wholly in [from, to) that aren't FF; `to` is the end of a sector. */
static void erase_dirty(Flash *f, const Reading *s, size_t from, size_t to)
{
    size_t a = floor_of(from + SECTOR - 1);
    while (a < to) {
        a = first_written(f->m, past_blank(s->blank, a, to), to);
        if (a == to)
            return;
        erase(f, floor_of(a));
        a = floor_of(a) + SECTOR;
    }
}

/* 1: a CLEAN head. */
static void repair_clean(Flash *f, const Reading *s)
{
    const Place *p = &s->place;
    size_t low = floor_of(p->head);
    if (magic_of(s->first.header) != CLEAN)
        return;
    if (!p->turned)
        erase_dirty(f, s, 0, low);
    erase_dirty(f, s, p->tail, p->turned ? low : p->length);
    bl_to_start(f, p->head);
}

/* 2: a move that was cut. */
static void repair_move(Flash *f, Reading *s)
{
    if (s->records < 2 || !is_mark(s->second.header))
        return;
    if (magic_of(s->second.header) == CLEAN)
        bl_close(f, s->place.length, &s->first, &s->second);
    else
        program(f, s->first.at + 1, 0x00);
    bl_move_head(&s->place, &s->second);
    s->superseded -= s->first_superseded;
}

static void finish_wrap(Flash *f, size_t at)
{
    program(f, at, 0xFA);
    program(f, at + 1, 0x5A);
    program(f, at + 2, WRAP_STATUS);
}

/* 3: the last thing. The status's top bit goes alone first: cut on the way to 00, it might otherwise be FC or F8. */
static void repair_last(Flash *f, const Reading *s)
{
    const Record *r = &s->last;
    size_t i, name_end = r->at + 8 + r->name_length;
    if (s->torn_wrap != NONE)
        finish_wrap(f, s->torn_wrap);
    if (!unfinished(r))
        return;
    if (status_of(r->header) == ERASED) {
        program(f, r->at, 0xA5);
        program(f, r->at + 1, 0x5A);
        for (i = 4; i <= 8; i++)
            program(f, r->at + i, 0x00);
    } else if (f->m[name_end] != 0x00) {
        bl_end_name(f, name_end);
    }
    program(f, r->at + 2, status_of(r->header) & 0x7F);
    program(f, r->at + 2, DELETED);
}

/* Whether an FC record has the name of r. */
static bool has_committed(const Reading *s, const Record *r)
{
    Cursor c = bl_cursor(s->place.length, s->place.head);
    Record other;
    while (bl_next(s->m, s->place.length, &c, &other) == A_RECORD)
        if (status_of(other.header) == COMMITTED && has_name(s->m, &other, s->m + r->at + 8, r->name_length))
            return true;
    return false;
}

/* 4: each F8 with an FC of its name. After calls of this store there is one at most, and the reading found it. */
static void repair_superseded(Flash *f, const Reading *s)
{
    Cursor c = bl_cursor(s->place.length, s->place.head);
    Record r;
    if (s->superseded == 1)
        program(f, s->superseded_at + 2, DELETED);
    if (s->superseded <= 1)
        return;
    while (bl_next(s->m, s->place.length, &c, &r) == A_RECORD)
        if (is_file(&r) && status_of(r.header) == MIGRATING && has_committed(s, &r))
            program(f, r.at + 2, DELETED);
}

uint32_t baseline_mount(uint8_t *m, size_t n, size_t allowance, size_t *head, size_t *tail, size_t *files,
                        size_t *live, size_t *dead, size_t *blank, size_t *lost, size_t *steps)
{
    Flash f = {m, allowance, 0};
    Space space = {live, dead, blank, lost};
    Query q = nothing();
    Reading s;
    uint32_t answer;
    *head = *tail = *files = *steps = 0;
    tell_nothing(&space);
    answer = bl_read(m, n, &q, &s);
    if (answer != DONE)
        return answer;
    repair_clean(&f, &s);
    repair_move(&f, &s);
    repair_last(&f, &s);
    repair_superseded(&f, &s);
    if (!is_cut(&f)) {
        *head = s.place.head;
        *tail = s.place.tail;
        *files = s.files;
        if (f.asked == 0)
            bl_tell(&s.place, s.turn, s.live, &space);
        else
            bl_tell_chain(m, n, s.place.head, &space);
    }
    return answer_of(&f, steps);
}
