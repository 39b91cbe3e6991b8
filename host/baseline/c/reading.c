/* The reading of an image: head, chain, names, free run and refusal 5, each read once. */
#include "store.h"

/* Asks for the file of this name. False: no good name. */
bool bl_ask(Query *q, const uint8_t *name, size_t length)
{
    uint8_t padded[8 * NAME_WORDS] = {0};
    *q = nothing();
    q->name = name;
    q->name_length = length;
    if (length < 1 || length > 63)
        return false;
    memcpy(padded, name, length);
    return name_key(padded, length, &q->key);
}

static void note_superseded(Reading *s, size_t at)
{
    if (at == s->place.head)
        s->first_superseded = true;
    if (at != s->place.head || s->superseded == 0)
        s->superseded_at = at;
    s->superseded++;
    s->files--;
}

/* A file whose key was seen, against those before it: no other of its status and name. */
static bool told_apart(Reading *s, const Record *r)
{
    Cursor c = bl_cursor(s->place.length, s->place.head);
    Record other;
    while (bl_next(s->m, s->place.length, &c, &other) == A_RECORD && other.at != r->at) {
        if (!is_file(&other) || !has_name(s->m, &other, s->m + r->at + 8, r->name_length))
            continue;
        if (status_of(other.header) == status_of(r->header))
            return false;
        note_superseded(s, status_of(other.header) == MIGRATING ? other.at : r->at);
    }
    return true;
}

/* Notes a file; false if its name isn't good or is doubled. */
static bool noted_file(Reading *s, Seen *keys, Query *q, const Record *r)
{
    uint64_t key;
    if (!name_key(s->m + r->at + 8, r->name_length, &key))
        return false;
    if (s->files == q->index || (key == q->key && q->name && has_name(s->m, r, q->name, q->name_length))) {
        q->found = true;
        q->file = *r;
    } else if (r->size > s->largest) {
        s->largest = r->size;
    }
    s->files++;
    s->live += r->size;
    return !seen(keys, key) || told_apart(s, r);
}

/* Notes a record of the chain; false if it breaks a rule. */
static bool noted(Reading *s, Seen *keys, Query *q, const Record *r)
{
    if (s->records == 0)
        s->first = *r;
    else if (s->records == 1)
        s->second = *r;
    else if (is_mark(r->header))
        return false;
    s->records++;
    return !is_file(r) || noted_file(s, keys, q, r);
}

static bool chain_legal(Reading *s, Query *q)
{
    Cursor c = bl_cursor(s->place.length, s->place.head);
    Seen keys;
    Step step;
    memset(&keys, 0, sizeof keys);
    while ((step = bl_next(s->m, s->place.length, &c, &s->last)) == A_RECORD)
        if (!noted(s, &keys, q, &s->last))
            return false;
    s->torn_wrap = step == A_TORN_WRAP ? c.at : NONE;
    s->place.tail = step == A_TORN_WRAP ? 0 : c.at;
    s->place.turned = c.turned || step == A_TORN_WRAP;
    s->turn = c.turn;
    return step != A_BREACH;
}

static bool second_marked(const Reading *s)
{
    return s->records > 1 && is_mark(s->second.header);
}

/* A mark on the second record: the first is dead, and a START stands in its sector. */
static bool marks_legal(const Reading *s)
{
    if (!second_marked(s))
        return true;
    if (is_file(&s->first) && !s->first_superseded)
        return false;
    return magic_of(s->second.header) == CLEAN || floor_of(s->second.at) == floor_of(s->place.head);
}

/* [from, to) is FF; what is known to be isn't read again. */
static bool free_blank(const Reading *s, size_t from, size_t to)
{
    return is_blank(s->m, past_blank(s->blank, from, to), to);
}

static bool free_run_legal(const Reading *s)
{
    const Place *p = &s->place;
    size_t low = floor_of(p->head), end = p->turned ? low : p->length, next = floor_of(p->tail) + SECTOR;
    if (magic_of(s->first.header) == CLEAN)
        return free_blank(s, p->tail, next < end ? next : end);
    return free_blank(s, p->tail, end) && (p->turned || free_blank(s, 0, low));
}

/* The reading, or refusal 22 for a bad length, 5 or 6. */
uint32_t bl_read(const uint8_t *m, size_t n, Query *q, Reading *s)
{
    uint32_t answer;
    if (!good_length(n))
        return INVALID;
    memset(s, 0, sizeof *s);
    s->m = m;
    s->place.length = n;
    answer = bl_head(m, n, &s->place.head, &s->blank);
    if (answer != DONE)
        return answer;
    return chain_legal(s, q) && marks_legal(s) && free_run_legal(s) ? DONE : BROKEN;
}

static bool settled(const Reading *s)
{
    return magic_of(s->first.header) == START && !second_marked(s) && s->torn_wrap == NONE && !unfinished(&s->last)
           && s->superseded == 0;
}

uint32_t bl_read_settled(const uint8_t *m, size_t n, Query *q, Reading *s)
{
    uint32_t answer = bl_read(m, n, q, s);
    return answer == DONE && !settled(s) ? UNSETTLED : answer;
}
