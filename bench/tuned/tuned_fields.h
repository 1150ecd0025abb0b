/* The fields of a line, each judged as it ends. Every line has bytes behind it that may be read, so no end is asked for here.
   A header, so that it is compiled into the one loop over the lines. */
#ifndef TUNED_FIELDS_H
#define TUNED_FIELDS_H

#include "tuned_digits.h"
#include "tuned_inner.h"
#include "tuned_words.h"

static inline int digits(const uint8_t *p, unsigned size)
{
    /* the two words overlap */
    return (not_digits(load(p)) | not_digits(load(p + size - 8))) == 0 && p[size] == BAR;
}

/* Each of these goes on to behind the bar of a field that passes, or gives 0 and stays where the field begins. */

static inline int cpf(const uint8_t **at)
{
    if (!digits(*at, CPF_SIZE) || !cpf_right(*at))
        return 0;
    *at += CPF_SIZE + 1;
    return 1;
}

static inline int cnpj(const uint8_t **at)
{
    if (!digits(*at, CNPJ_SIZE) || !cnpj_right(*at))
        return 0;
    *at += CNPJ_SIZE + 1;
    return 1;
}

/* Up to a bar, CR or LF, or past the most. */
static const uint8_t *end_of_text(const uint8_t *p, const uint8_t *most)
{
    while (p <= most && tuned_class[*p] < A_BAR)
        p++;
    return p;
}

static inline int text(const uint8_t **at, const row *r)
{
    const uint8_t *p = *at, *most = p + r->size;
    uint64_t word = load(p), marks;
    while ((marks = bars(word) | controls(word)) == 0) {
        p += 8;
        if (p > most)
            return 0;
        word = load(p);
    }
    p += through_mark(marks) - 1;
    /* a control byte may stand in a text, but for CR and LF */
    if (*p != BAR) {
        p = end_of_text(p, most);
        if (*p != BAR)
            return 0;
    }
    if (p > most || (p == *at && r->must))
        return 0;
    *at = p + 1;
    return 1;
}

static inline int flags(const uint8_t **at, unsigned left)
{
    for (; left > 0; left--, *at += 2) {
        unsigned pair = (*at)[0] | (unsigned)(*at)[1] << 8;
        if (pair != ('N' | BAR << 8) && pair != ('S' | BAR << 8))
            return 0;
    }
    return 1;
}

static inline int date(const uint8_t **at)
{
    const uint8_t *p = *at;
    if (*p == BAR) {
        *at = p + 1;
        return 1;
    }
    if (not_digits(load(p)) != 0 || p[8] != BAR || !tuned_is_date(p))
        return 0;
    *at = p + 9;
    return 1;
}

/* An amount that is not empty: digits up to a bar, at most so many, and no zero in front. The word is its first eight bytes. */
static inline int amount(const uint8_t **at, uint64_t word, unsigned size)
{
    const uint8_t *p = *at;
    uint64_t marks = not_digits(word);
    if (marks == 0) {
        p += 8;
        marks = not_digits(load(p));
        if (marks == 0)
            return 0;
    }
    p += through_mark(marks);
    if (p[-1] != BAR || p > *at + size + 1 || (word & 0xff) == '0')
        return 0;
    *at = p;
    return 1;
}

/* An amount that must be filled. */
static inline int due(const uint8_t **at, unsigned size)
{
    uint64_t word = load(*at);
    return (word & 0xff) != BAR && amount(at, word, size);
}

/* All amounts of a row. Empty ones, a bar each, are passed over as many at a time as stand together. */
static inline int amounts(const uint8_t **at, const row *r)
{
    unsigned left = r->count;
    do {
        uint64_t word = load(*at);
        if ((word & 0xff) == BAR) {
            unsigned empty = leading_bars(word);
            empty = empty < left ? empty : left;
            left -= empty;
            *at += empty;
        } else {
            if (!amount(at, word, r->size))
                return 0;
            left--;
        }
    } while (left > 0);
    return 1;
}

/* The rarer fields; where the next begins, or NULL. */
static const uint8_t *general(const uint8_t *p, const row *r)
{
    const uint8_t *end = end_of_text(p, p + r->size);
    return *end == BAR && tuned_rule(r, p, (size_t)(end - p)) == 0 ? end + 1 : NULL;
}

static inline int other(const uint8_t **at, const row *r)
{
    const uint8_t *next = **at == BAR && !r->must ? *at + 1 : general(*at, r);
    *at = next == NULL ? *at : next;
    return next != NULL;
}

/* Goes through the rows for as long as their fields pass. */
static inline walk pass_fields(walk w)
{
    const uint8_t *at = w.at;
    const row *r = w.row;
    for (;; r++) {
        int passes;
        switch (r->op) {
        case AMOUNT: passes = amounts(&at, r); break;
        case DUE: passes = due(&at, r->size); break;
        case CPF: passes = cpf(&at); break;
        case CNPJ: passes = cnpj(&at); break;
        case TEXT: passes = text(&at, r); break;
        case FLAG: passes = flags(&at, r->count); break;
        case DATE: passes = date(&at); break;
        case DONE: passes = 0; break;
        default: passes = other(&at, r); break;
        }
        if (!passes)
            return (walk){r, at};
    }
}

#endif
