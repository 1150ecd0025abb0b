/* The totals of a file, held: by the C functions against the plain checker's check, and that one against its reading of every line. */
#ifndef TOTALS_H
#define TOTALS_H

#include "../plain/plain_inner.h"

/* One place for each kind, and place 0, which is no kind's. */
enum { TOTAL_PLACES = KINDS + 1, MOST_LENT = 90 };

/* The plain checker's answer to a file, and its totals. */
typedef struct {
    plain_answer answer;
    uint64_t of[TOTAL_PLACES];
} known_totals;

known_totals totals_by_plain(part file, size_t room);

/* What is asked of a file beside all its totals. */
typedef struct {
    size_t lent;            /* so many places, once more; none more where it is TOTAL_PLACES */
    uint32_t alone;         /* the total of this kind, which may be any number */
    int asked_alone;        /* whether it is asked for by its own function too, not by reading only */
    int read_all;           /* whether every kind is read again, not this one only */
} totals_question;

/* What came of the questions so far. */
typedef struct {
    unsigned long files, not_zero, lent, alone, alone_not_zero, read;
} totals_held;

/* The next question: they go in turn, so that no file hangs on them. Of two files one is asked for a kind that has a total in it. */
totals_question next_question(const known_totals *known);

/* NULL, or in words what differs. */
const char *totals_difference(part file, size_t room, const known_totals *known, totals_question q);

/* Counts a file in which nothing differed. */
void count_held(totals_held *h, const known_totals *known, totals_question q);

void print_held(const char *name, const totals_held *h);

#endif
