/* Eight bytes of a file at a time, the first of them lowest, on any processor. */
#ifndef TUNED_WORDS_H
#define TUNED_WORDS_H

#include <stddef.h>
#include <stdint.h>

#define EACH(byte) (UINT64_C(0x0101010101010101) * (byte))

static inline uint64_t load(const uint8_t *p)
{
    return (uint64_t)p[0] | (uint64_t)p[1] << 8 | (uint64_t)p[2] << 16 | (uint64_t)p[3] << 24 | (uint64_t)p[4] << 32
        | (uint64_t)p[5] << 40 | (uint64_t)p[6] << 48 | (uint64_t)p[7] << 56;
}

/* The first byte highest, so that words compare as their bytes do. */
static inline uint64_t load_to_compare(const uint8_t *p)
{
    return (uint64_t)p[0] << 56 | (uint64_t)p[1] << 48 | (uint64_t)p[2] << 40 | (uint64_t)p[3] << 32 | (uint64_t)p[4] << 24
        | (uint64_t)p[5] << 16 | (uint64_t)p[6] << 8 | (uint64_t)p[7];
}

/* What follows marks bytes by their highest bit. Only the lowest mark is sure to be one. */

static inline uint64_t bars(uint64_t word)
{
    uint64_t x = word ^ EACH('|');
    return (x - EACH(1)) & ~x & EACH(0x80);
}

/* CR and LF among them. */
static inline uint64_t controls(uint64_t word)
{
    return (word - EACH(' ')) & ~word & EACH(0x80);
}

static inline uint64_t not_digits(uint64_t word)
{
    uint64_t x = word ^ EACH('0');
    return ((x + EACH(0x80 - 10)) | x) & EACH(0x80);
}

/* The bits below the lowest mark's. */
static inline uint64_t below_mark(uint64_t marks)
{
    return (marks - 1) & ~marks;
}

/* How many bytes there are up to and with the lowest one marked; there is one. */
static inline size_t through_mark(uint64_t marks)
{
    return (size_t)((below_mark(marks) & EACH(1)) * EACH(1) >> 56);
}

/* How many bars there are in front of anything else, up to eight. */
static inline unsigned leading_bars(uint64_t word)
{
    uint64_t x = word ^ EACH('|');
    return (unsigned)((below_mark(x) >> 7 & EACH(1)) * EACH(1) >> 56);
}

#endif
