/* The check digits of CPF and CNPJ, eight digits at a time. Only digits may be asked. */
#ifndef TUNED_DIGITS_H
#define TUNED_DIGITS_H

#include "tuned_inner.h"
#include "tuned_words.h"

/* The weights of every other digit, the first one's highest, so that the highest part of a product is the sum that they ask for. */
#define WEIGHTS(a, b, c, d) ((uint64_t)(a) << 48 | (uint64_t)(b) << 32 | (uint64_t)(c) << 16 | (uint64_t)(d))

/* Eight digits, or sums of two, times their weights: those of the first, third and so on, then of the others. */
static inline unsigned weighed(uint64_t digits, uint64_t odd, uint64_t even)
{
    const uint64_t every_other = UINT64_C(0x00ff00ff00ff00ff);
    return (unsigned)(((digits & every_other) * odd + (digits >> 8 & every_other) * even) >> 48);
}

static inline unsigned sum_of(uint64_t digits)
{
    return (unsigned)(digits * EACH(1) >> 56);
}

/* 10 down to 2, then 11 down to 2: in the second sum each of the nine weighs one more, and the first check digit 2. */
static inline int cpf_right(const uint8_t *p)
{
    uint64_t digits = load(p) ^ EACH('0');
    unsigned ninth = p[8] - '0', first = weighed(digits, WEIGHTS(10, 8, 6, 4), WEIGHTS(9, 7, 5, 3)) + 2 * ninth;
    unsigned second = first + sum_of(digits) + ninth + 2u * p[9] - 2 * '0';
    return tuned_check_digit[first] == p[9] && tuned_check_digit[second] == p[10];
}

/* 5 4 3 2 9 8 7 6 5 4 3 2: the first four weigh as the last four do and are added to them. In the second sum each weighs one more, but the
   fifth 2 for 9. */
static inline int cnpj_right(const uint8_t *p)
{
    uint64_t digits = (load(p + 4) ^ EACH('0')) + ((load(p) ^ EACH('0')) << 32);
    unsigned first = weighed(digits, WEIGHTS(9, 7, 5, 3), WEIGHTS(8, 6, 4, 2));
    unsigned second = first + sum_of(digits) - 8 * (unsigned)(digits & 0xff) + 2u * p[12] - 2 * '0';
    return tuned_check_digit[first] == p[12] && tuned_check_digit[second] == p[13];
}

#endif
