/* The name that a call is given: whether it is good, and what is wrong with it. */
#include "store.h"

enum { EMPTY = 1, TOO_LONG = 2, BAD_BYTE = 3, FINAL_SLASH = 4 };

/* The place of the first byte that may not stand where it does; the length if there is none. */
static size_t first_bad(const uint8_t *name, size_t length)
{
    size_t i;
    for (i = 0; i < length; i++) {
        bool inside = i > 0 && i + 1 < length;
        if (name[i] < (inside ? 0x20 : 0x21) || name[i] > 0x7E)
            break;
    }
    return i;
}

/* The reason, 0 if nothing is wrong, and of a bad byte its place. */
static uint32_t fault(const uint8_t *name, size_t length, size_t *place)
{
    size_t bad;
    if (length == 0)
        return EMPTY;
    if (length > 63)
        return TOO_LONG;
    bad = first_bad(name, length);
    if (bad == length)
        return name[length - 1] == '/' ? FINAL_SLASH : 0;
    *place = bad;
    return BAD_BYTE;
}

bool bl_admit(Query *q, size_t n, const uint8_t *name, size_t length, uint32_t *reason, size_t *place)
{
    *reason = 0;
    *place = 0;
    if (!good_length(n))
        return false;
    if (bl_ask(q, name, length))
        return true;
    *reason = fault(name, length, place);
    return false;
}
