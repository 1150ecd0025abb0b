/* What a run of searches has met. */
#ifndef MET_SEARCHES_H
#define MET_SEARCHES_H

#include "asked.h"

/* The blocks in which an IDREC stands. */
enum { OF_DECLARANT, OF_FCI, OF_PROC, OF_RRA, BLOCKS };

/* How a search in an accepted file ends, by who stands below the IDREC. */
enum {
    FOUND_FIRST, FOUND_MIDDLE, FOUND_LAST, FOUND_ONLY, BEFORE_ALL, BETWEEN, BEHIND_ALL, COMPANY_BEHIND, COMPANY_FIRST, NOBODY, ENDINGS
};

/* Why it is 27, where that is the only reason: of the line asked for, and of an entry that is reached. */
enum { LINE_0, PAST_TABLE, NO_IDREC, NO_BENEFICIARY, PAST_FILE, PAST_32_BITS, LAST_PAST_TABLE, LAST_BEFORE, CAUSES };
enum { AT_IDREC, AT_FIRST, AT_LATER, PLACES };

/* What a given table may have, of a beneficiary that the search steps over: a last line past the IDREC's own, one that is the table's last,
   and an entry that ends with the file. */
enum { PAST_OWN, LAST_OF_TABLE, AT_FILE_END, EDGES };

/* By answer: nobody, somebody, 27. */
enum { NOT_FOUND, FOUND, REFUSED, ANSWERS };

typedef struct {
    unsigned long accepted, refused, full;                          /* by `S`: in accepted files, in refused ones, in those with 7 */
    unsigned long ending[EDITIONS][BLOCKS][ENDINGS];                /* in accepted files with their own table */
    unsigned long spoiled[EDITIONS][ANSWERS];                       /* in refused files with theirs, as far as it goes */
    unsigned long by_table[TABLES][ANSWERS];                        /* by what the table is */
    unsigned long changed[CHANGED_ENTRIES][TABLE_NUMBERS][VALUES];  /* with one number changed */
    unsigned long cause[2][PLACES][CAUSES];                         /* 27 by `S` and by `T` */
    unsigned long edge[EDGES];                                      /* by `T` */
} searches_met;

void count_search(searches_met *m, const asked *a, const lent_table *lent, plain_found f);

/* Says on standard error what was not met; 1 if all was. */
int all_searches_met(const searches_met *m);

void print_searches(const searches_met *m);

#endif
