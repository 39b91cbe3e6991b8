/* K3: live, dead, free and lost bytes of the image that a call leaves. */
#include "store.h"

/* Of a chain with this place. If it has turned, its records before the turn end at `turn`, and a marker stands there but at N. */
void bl_tell(const Place *p, size_t turn, size_t live, Space *space)
{
    size_t low = floor_of(p->head), all = p->turned ? turn - p->head + p->tail : p->tail - p->head;
    bool marker = p->turned && turn < p->length;
    *space->live = live;
    *space->dead = all - live + (marker ? 8 : 0);
    *space->blank = p->turned ? low - p->tail : p->length - p->tail + low;
    *space->lost = p->head - low + (marker ? p->length - (turn + 8) : 0);
}

/* By one more pass over the chain. */
void bl_tell_chain(const uint8_t *m, size_t n, size_t head, Space *space)
{
    Cursor c = bl_cursor(n, head);
    Place p = {.head = head, .length = n};
    size_t live = 0;
    Record r;
    while (bl_next(m, n, &c, &r) == A_RECORD)
        if (is_file(&r))
            live += r.size;
    p.tail = c.at;
    p.turned = c.turned;
    bl_tell(&p, c.turn, live, space);
}
