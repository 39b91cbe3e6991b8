/* "Geometry and record": the bytes of an image, eight at a time, and what a header says. */
#ifndef BYTES_H
#define BYTES_H

#include <stdbool.h>
#include <stddef.h>
#include <stdint.h>
#include <string.h>

#if __BYTE_ORDER__ != __ORDER_LITTLE_ENDIAN__
#error "numbers in an image are little endian, and are read as they stand"
#endif

#define SECTOR ((size_t)4096)
#define NONE SIZE_MAX
#define BLANK UINT64_MAX

enum { RECORD = 0x5AA5, WRAP = 0x5AFA, START = 0x5A00, CLEAN = 0x5AA0 };

enum { ERASED = 0xFF, RESERVED = 0xFE, COMMITTED = 0xFC, MIGRATING = 0xF8, WRAP_STATUS = 0xF0, DELETED = 0x00 };

enum { DONE = 0, NO_FILE = 2, CUT = 4, BROKEN = 5, NO_HEAD = 6, UNSETTLED = 16, INVALID = 22, NO_ROOM = 28 };

static inline bool good_length(size_t n) { return n % SECTOR == 0 && n >= 2 * SECTOR && n <= 16777216; }

static inline size_t floor_of(size_t a) { return a - a % SECTOR; }

static inline size_t up8(size_t a) { return (a + 7) / 8 * 8; }

/* Header and name, with the name's 00 and padding. */
static inline size_t size_before_data(size_t name_length) { return 8 + up8(name_length + 1); }

/*
 * The eight bytes at a, the first lowest. All that stands in an image begins at a multiple of 8; the image itself may
 * begin anywhere.
 */
static inline uint64_t word_at(const uint8_t *m, size_t a)
{
    uint64_t word;
    memcpy(&word, m + a, 8);
    return word;
}

/* The bytes of a block, and how many times 32. */
#define BLOCK ((size_t)512)
#define BLOCK_PARTS 16

/* A block is FF. Of its words the even and the odd are kept apart: gcc then joins two neighbours to one load. */
static inline bool blank_block(const uint8_t *m, size_t a)
{
    uint64_t even = word_at(m, a) & word_at(m, a + 16), odd = word_at(m, a + 8) & word_at(m, a + 24);
    int part;
    for (part = 1; part < BLOCK_PARTS; part++) {
        a += 32;
        even &= word_at(m, a) & word_at(m, a + 16);
        odd &= word_at(m, a + 8) & word_at(m, a + 24);
    }
    return (even & odd) == BLANK;
}

/* The bits that are set in all of the eight words at a. */
static inline uint64_t eight_words_at(const uint8_t *m, size_t a)
{
    return word_at(m, a) & word_at(m, a + 8) & word_at(m, a + 16) & word_at(m, a + 24) & word_at(m, a + 32)
           & word_at(m, a + 40) & word_at(m, a + 48) & word_at(m, a + 56);
}

/* The first word that isn't FF in [from, to), or `to`; both are multiples of 8. */
static inline size_t first_written(const uint8_t *m, size_t from, size_t to)
{
    while (to - from >= BLOCK && blank_block(m, from))
        from += BLOCK;
    while (to - from >= 64 && eight_words_at(m, from) == BLANK)
        from += 64;
    while (from < to && word_at(m, from) == BLANK)
        from += 8;
    return from;
}

static inline bool is_blank(const uint8_t *m, size_t from, size_t to) { return first_written(m, from, to) == to; }

/* A header: magic (2), status, reserved byte, data length (4). */
typedef uint64_t Header;

static inline uint8_t low_of(Header h) { return (uint8_t)h; }

static inline uint8_t high_of(Header h) { return (uint8_t)(h >> 8); }

static inline uint8_t status_of(Header h) { return (uint8_t)(h >> 16); }

static inline uint8_t reserved_byte_of(Header h) { return (uint8_t)(h >> 24); }

static inline size_t data_length_of(Header h) { return (size_t)(h >> 32); }

/* A cut inside a step leaves A4 or A1 between A5 and A0, and 80 stands between A0 and 00: they count as A5 and as A0. */
static inline unsigned magic_of(Header h)
{
    unsigned magic = (unsigned)(h & 0xFFFF);
    switch (magic) {
    case 0x5AA4:
    case 0x5AA1:
        return RECORD;
    case 0x5A80:
        return CLEAN;
    default:
        return magic;
    }
}

/*
 * A record as most are: magic 5AA5, the reserved byte FF, and written up to its status. No torn thing looks so, for A5 is
 * not on the way to FA.
 */
static inline bool is_plain(Header h) { return (h & 0xFF00FFFF) == 0xFF005AA5 && status_of(h) < RESERVED; }

static inline bool is_mark(Header h) { return magic_of(h) == START || magic_of(h) == CLEAN; }

/* On the way from FF to this byte: it has all the bits that are to stay. FF is on the way, and so is the byte itself. */
static inline bool on_way(uint8_t byte, uint8_t to) { return (byte & to) == to; }

/* A magic begun with this first byte, and perhaps not finished. */
static inline bool begun(Header h, uint8_t low)
{
    return low_of(h) != 0xFF && on_way(low_of(h), low) && on_way(high_of(h), 0x5A);
}

/* The two unfinished headers, each byte judged by itself. */
static inline bool torn(Header h) { return status_of(h) == ERASED && begun(h, 0xA5); }

static inline bool torn_wrap(Header h)
{
    return begun(h, 0xFA) && on_way(status_of(h), WRAP_STATUS) && status_of(h) != WRAP_STATUS;
}

#endif
