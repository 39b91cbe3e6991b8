/* What the files of the store share: records, the chain, its reading, and the steps. */
#ifndef STORE_H
#define STORE_H

#include "baseline.h"
#include "bytes.h"
#include "names.h"

/* A record of the chain. A torn one has no name and no data, whatever its header says. */
typedef struct {
    size_t at, size, name_length;
    Header header;
    bool turned; /* stands after the turn */
} Record;

static inline size_t data_at(const Record *r) { return r->at + size_before_data(r->name_length); }

static inline bool unfinished(const Record *r)
{
    return status_of(r->header) == ERASED || status_of(r->header) == RESERVED;
}

/* An FC or F8 record with a name; the live files are these but the superseded. */
static inline bool is_file(const Record *r)
{
    return r->name_length > 0 && (status_of(r->header) == COMMITTED || status_of(r->header) == MIGRATING);
}

static inline bool has_name(const uint8_t *m, const Record *r, const uint8_t *name, size_t length)
{
    return r->name_length == length && memcmp(m + r->at + 8, name, length) == 0;
}

/* place.c: where the chain ends, and what fits behind it */

typedef struct {
    size_t head, tail, length;
    bool turned;
} Place;

/* The address of a record, and of the marker before it, or NONE. */
typedef struct {
    size_t at, marker;
} Spot;

bool bl_fit(Place *p, size_t size, Spot *spot);
void bl_move_head(Place *p, const Record *y);

/* space.c: what the bytes are good for, of an image with nothing to repair: by its place, the end of its records before the turn and
   the bytes of its files; or by a pass over its chain */

typedef struct {
    size_t *live, *dead, *blank, *lost;
} Space;

void bl_tell(const Place *p, size_t turn, size_t live, Space *space);
void bl_tell_chain(const uint8_t *m, size_t n, size_t head, Space *space);

static inline void tell_nothing(Space *space) { *space->live = *space->dead = *space->blank = *space->lost = 0; }

/* head.c: the head, and a stretch that the search for it found to be FF */

typedef struct {
    size_t from, to;
} Stretch;

/* Where [from, to) goes on behind what is known to be FF. */
static inline size_t past_blank(Stretch blank, size_t from, size_t to)
{
    if (from < blank.from || from >= blank.to)
        return from;
    return blank.to < to ? blank.to : to;
}

uint32_t bl_head(const uint8_t *m, size_t n, size_t *head, Stretch *blank);

/* chain.c: what stands at a place of the chain */

typedef struct {
    size_t at, end, room; /* the next place; its limit; the limit after a turn, 0 if there can be none */
    bool turned, held;    /* held: an unfinished record stands before */
    size_t turn;          /* where the records before the turn ended */
} Cursor;

typedef enum { A_RECORD, THE_TAIL, A_TORN_WRAP, A_BREACH } Step;

Cursor bl_cursor(size_t n, size_t head);
Step bl_next_thing(const uint8_t *m, size_t n, Cursor *c, Record *r);

/* A plain record at the cursor, if it ends in time. */
static inline Step next_plain(const uint8_t *m, size_t n, Cursor *c, Header h, Record *r)
{
    size_t room = c->end - c->at, name_length, before;
    if (!name_end(m, n, c->at, h, &name_length, &before))
        return A_BREACH;
    if (before > room || data_length_of(h) > room - before)
        return A_BREACH;
    r->at = c->at;
    r->size = before + up8(data_length_of(h));
    r->name_length = name_length;
    r->header = h;
    r->turned = c->turned;
    c->at += r->size;
    return A_RECORD;
}

/* What stands at the cursor, which then goes on behind it; r is changed by a record alone. */
static inline Step bl_next(const uint8_t *m, size_t n, Cursor *c, Record *r)
{
    if (c->at != c->end && !c->held) {
        Header h = word_at(m, c->at);
        if (is_plain(h))
            return next_plain(m, n, c, h, r);
    }
    return bl_next_thing(m, n, c, r);
}

/* reading.c: one reading of the whole image, which also finds the file that is asked for */

typedef struct {
    const uint8_t *name; /* of the file, or null */
    size_t name_length;
    uint64_t key;
    size_t index; /* of the file, or NONE */
    bool found;
    Record file;
} Query;

typedef struct {
    const uint8_t *m;
    Place place;
    Stretch blank;
    size_t records, files;
    size_t largest;       /* the size of the largest file but the one asked for */
    size_t live;          /* the sizes of the files, superseded ones too */
    size_t turn;          /* where the records before the turn end */
    size_t superseded;    /* how many F8 have an FC of their name */
    size_t superseded_at; /* the only one's address; if the head is one of two, the other's */
    size_t torn_wrap;     /* its address, or NONE */
    bool first_superseded;
    Record first, second, last;
} Reading;

bool bl_ask(Query *q, const uint8_t *name, size_t length);
uint32_t bl_read(const uint8_t *m, size_t n, Query *q, Reading *s);
uint32_t bl_read_settled(const uint8_t *m, size_t n, Query *q, Reading *s);

/* names.c: whether N and the name are good; then the query asks for the file. Else why the name isn't, 0 where N isn't. */

bool bl_admit(Query *q, size_t n, const uint8_t *name, size_t length, uint32_t *reason, size_t *place);

/* The query that asks for no file. */
static inline Query nothing(void)
{
    Query q = {.index = NONE};
    return q;
}

/* The steps: nothing else writes the image */

typedef struct {
    uint8_t *m;
    size_t allowance, asked;
} Flash;

static inline void program(Flash *f, size_t at, uint8_t byte)
{
    if (f->asked < f->allowance)
        f->m[at] = byte;
    f->asked++;
}

static inline void erase(Flash *f, size_t at)
{
    if (f->asked < f->allowance)
        memset(f->m + at, 0xFF, SECTOR);
    f->asked++;
}

/* A step was asked for that the allowance didn't cover: nothing more is done. */
static inline bool is_cut(const Flash *f) { return f->asked > f->allowance; }

static inline uint32_t answer_of(const Flash *f, size_t *steps)
{
    *steps = is_cut(f) ? f->allowance : f->asked;
    return is_cut(f) ? CUT : DONE;
}

/* write.c: a record written as in put; old is the one replaced, or null */

typedef struct {
    const uint8_t *name, *data;
    size_t name_length, data_length;
} Content;

void bl_write(Flash *f, const Record *old, Spot spot, const Content *content);
void bl_end_name(Flash *f, size_t at);

/* move.c: steps (c) to (f) of a move */

void bl_close(Flash *f, size_t n, const Record *x, const Record *y);
void bl_to_start(Flash *f, size_t at);

#endif
