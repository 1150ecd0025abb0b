/* The records of accepted files by where they stand: under which declarant, and directly below which record. */
#ifndef MET_RECORDS_H
#define MET_RECORDS_H

#include "../plain/plain_inner.h"

/* How often each came up, by its edition, the declarant, whether its parent stands below a BPFRRA, the parent's kind and its own. Of an
   INFPA the BPFRRA tells what may stand below it. */
typedef struct {
    unsigned long count[EDITIONS][DECPJ + 1][2][KINDS + 1][KINDS + 1];
} records_met;

/* Counts the records of an accepted file. */
void count_records(records_met *m, part file);

/* Says what never came up of the edition; 1 if all did. */
int all_records_met(const records_met *m, plain_edition edition);

/* Which came up least, of how many. */
void print_records(const records_met *m, plain_edition edition);

#endif
