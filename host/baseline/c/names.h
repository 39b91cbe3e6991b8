/* Names: where one ends, whether it is good, and a number by which it is found again. */
#ifndef NAMES_H
#define NAMES_H

#include "bytes.h"

#define EACH_BYTE UINT64_C(0x0101010101010101)
#define TOP_BITS (EACH_BYTE * 0x80)

/* The most words that a name and its 00 take. */
#define NAME_WORDS 8

/* The top bits of a word's 00 bytes; behind the first of them it may have others. */
static inline uint64_t zeros(uint64_t word) { return (word - EACH_BYTE) & ~word & TOP_BITS; }

/*
 * The first 00 in the 64 bytes from byte 8, up to N; in a reserved record a byte of 80 or more counts too. `before` is what
 * stands before the data, by the words that were read: so the next record's place doesn't wait for the length.
 */
static inline bool name_end(const uint8_t *m, size_t n, size_t at, Header h, size_t *length, size_t *before)
{
    size_t from = at + 8, a = from, to = n - from < 8 * NAME_WORDS ? n : from + 8 * NAME_WORDS;
    uint64_t also = status_of(h) == RESERVED ? TOP_BITS : 0;
    for (; a < to; a += 8) {
        uint64_t word = word_at(m, a), ends = zeros(word) | (word & also);
        if (ends != 0) {
            *length = a - from + (size_t)__builtin_ctzll(ends) / 8;
            *before = a + 8 - at;
            return true;
        }
    }
    return false;
}

/* Each byte of the word is 20 to 7E. */
static inline bool readable(uint64_t word)
{
    uint64_t below_20 = ~(word + EACH_BYTE * (0x80 - 0x20)), above_7e = word + EACH_BYTE * (0x7F - 0x7E);
    return ((word | below_20 | above_7e) & TOP_BITS) == 0;
}

/* Of the readable bytes those that a name may end with. */
static inline bool may_end(uint8_t last) { return last != ' ' && last != '/'; }

/* Each bit of the result depends on most of the bits, and the low ones on all. */
static inline uint64_t mixed(uint64_t bits)
{
    bits *= UINT64_C(0x9E3779B97F4A7C15);
    return bits ^ bits >> 32;
}

/*
 * A number of the name at `name`, whose bytes may be read up to the end of the word with its 00. False: the name isn't
 * good. The bytes from the 00 on count as 00.
 */
static inline bool name_key(const uint8_t *name, size_t length, uint64_t *key)
{
    size_t i;
    uint64_t word, kept, sum = 0;
    if (length < 1 || length > 63 || name[0] == ' ' || !may_end(name[length - 1]))
        return false;
    for (i = 0; i + 8 <= length; i += 8) {
        word = word_at(name, i);
        if (!readable(word))
            return false;
        sum = mixed(sum ^ word);
    }
    kept = (UINT64_C(1) << 8 * (length - i)) - 1;
    word = word_at(name, i) & kept;
    *key = mixed(mixed(sum ^ word));
    return readable(word | (EACH_BYTE * 'a' & ~kept));
}

/*
 * Which keys were seen: the same three bits for each in three words. One that wasn't is seldom taken for one that was:
 * of 2,048 of them three times in ten one is, of 256 hardly ever.
 */
typedef struct {
    uint64_t bits[512];
} Seen;

static inline uint64_t bit_of(uint64_t key, int by) { return UINT64_C(1) << (key >> by & 63); }

/* Whether the key was perhaps seen before; from now on it was. */
static inline bool seen(Seen *s, uint64_t key)
{
    uint64_t *one = &s->bits[key >> 55], *two = &s->bits[key >> 46 & 511], *three = &s->bits[key >> 37 & 511];
    uint64_t bits = bit_of(key, 0) | bit_of(key, 6) | bit_of(key, 12), missing = bits & ~(*one & *two & *three);
    *one |= bits;
    *two |= bits;
    *three |= bits;
    return missing == 0;
}

#endif
