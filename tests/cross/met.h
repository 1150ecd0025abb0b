/* What a run has met; one that has not met everything has shown less than it says. */
#ifndef MET_H
#define MET_H

#include "../plain/plain_inner.h"
#include "breaks.h"
#include "cases.h"
#include "faults.h"
#include "met_records.h"
#include "met_totals.h"
#include "met_ways.h"

/* An edition is here the one that a file is judged by. But for the numbers only what comes from a seed is counted, so that the listed
   files do not stand in for it. */
typedef struct {
    unsigned long number[LAST_RULE + 1];                        /* answers by number */
    unsigned long alone[LAST_RULE + 1];                         /* a rule broken alone, answered with its own number */
    unsigned long pair[LAST_RULE + 1][LAST_RULE + 1];           /* two rules broken in one file */
    unsigned long files[EDITIONS], taken[EDITIONS];             /* files, and those of them that were accepted */
    unsigned long listed[EDITIONS][BREAKS];                     /* a listed break, answered with its number at its line */
    records_met records;                                        /* the records of accepted files */
    totals_met totals;                                          /* the totals of all files, and the lines that are left out of them */
    unsigned long lacked[KINDS + 1][2];                         /* 9 for a kind of 2025 in an older file: in line 1, in a later one */
    unsigned long closed[EDITIONS], fixed[EDITIONS];            /* cuts that were closed, and cuts at which every tail changed nothing */
    unsigned long begun[EDITIONS];                              /* of the cuts that were closed those with no line at all */
    unsigned long written[EDITIONS][KINDS + 1];                 /* lines that the writer wrote, told the edition */
    unsigned long unwritten[KINDS + 1];                         /* 22 for a kind of 2025, told the older edition */
    ways_met in_files, in_lines;                                /* 26 and 19 by the check and by the writer, where that rule was broken */
} met;

/* Counts a file by its edition, with its answer, the totals of all kinds and what was done to it. */
void count_file(met *m, part file, plain_answer a, const uint64_t *totals, plan p);

/* Counts what the number of the answer shows of a file's plan. */
void count_plan(met *m, plan p, unsigned number);

/* Counts a file cut after so many whole lines that was closed, as it is then. */
void count_closed(met *m, part file, unsigned lines);

/* Says on standard error what was not met; 1 if all was. The numbers are 1 to `most` but for `left_out`, and 26. */
int all_met(const met *m, unsigned most, unsigned left_out);

/* The same of the line writer, which the archive has not. */
int lines_met(const met *m);

/* How often each number came up, and what came up of each edition. */
void print_met(const char *name, unsigned long cases, unsigned long differ, const met *m);

/* The same of the line writer, told the edition. */
void print_lines(const char *name, const met *m);

#endif
