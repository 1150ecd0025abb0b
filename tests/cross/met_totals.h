/* The totals of files by kind, and the lines whose amounts must not count. */
#ifndef MET_TOTALS_H
#define MET_TOTALS_H

#include "../plain/plain_inner.h"
#include "faults.h"

/* By edition; the totals by whether the file was accepted or refused. */
typedef struct {
    unsigned long kinds[EDITIONS][2][KINDS + 1];            /* files in which this kind has a total that is not 0 */
    unsigned long left_out[EDITIONS][LAST_RULE + 1];        /* answers, by number, whose line is a value record with amounts */
} totals_met;

/* Counts a file with its answer, the kind of the answer's line, and the totals of all kinds. */
void count_totals(totals_met *m, part file, plain_answer a, uint32_t kind, const uint64_t *totals);

/* Says what never came up of the edition; 1 if all did. */
int all_totals_met(const totals_met *m, plain_edition edition);

/* Which kinds came up least, of how many, and the answers whose line has amounts. */
void print_totals(const char *name, const totals_met *m, plain_edition edition);

#endif
