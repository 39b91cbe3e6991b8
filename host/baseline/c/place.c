/* "Placing": where a size fits, and what a move does to the place. */
#include "store.h"

/* Places a size; the place is then the one behind it. */
bool bl_fit(Place *p, size_t size, Spot *spot)
{
    size_t room = floor_of(p->head), end = p->turned ? room : p->length;
    spot->marker = NONE;
    if (size <= end - p->tail) {
        spot->at = p->tail;
        p->tail += size;
        return true;
    }
    if (p->turned || size > room)
        return false;
    if (p->tail < p->length)
        spot->marker = p->tail;
    spot->at = 0;
    p->tail = size;
    p->turned = true;
    return true;
}

/* The head goes on to y. Behind the turn the chain has none left; one that ends at N turns once it may. */
void bl_move_head(Place *p, const Record *y)
{
    p->head = y->at;
    if (y->turned)
        p->turned = false;
    if (!p->turned && p->tail == p->length && floor_of(p->head) > 0) {
        p->tail = 0;
        p->turned = true;
    }
}
