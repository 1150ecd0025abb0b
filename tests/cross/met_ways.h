/* The ways in which a field is refused with 26 or with 19, and how often each was the answer. */
#ifndef MET_WAYS_H
#define MET_WAYS_H

#include "../plain/plain_inner.h"

/* With 26 by the digits that the field has, with 19 by the condition that is broken. */
enum { CONDITIONS = 9 };
enum { WRONG_CPF, WRONG_CNPJ, FIRST_CONDITION, WAYS = FIRST_CONDITION + CONDITIONS };

/* How often each was the answer. */
typedef struct {
    unsigned long count[EDITIONS][KINDS + 1][MOST_FIELDS + 1][WAYS];
} ways_met;

/* A line that was refused, and all the fields that a line can have; those that this one has not are empty. */
typedef struct {
    plain_edition edition;
    unsigned kind;
    fault found;
    part fields[MOST_FIELDS];
} refusal;

/* Counts a 26 or a 19, where it is by one of the ways. */
void count_refusal(ways_met *m, const refusal *r);

/* Says what was not met of the edition; 1 if all was: 26 in every field that can have it, with either size where it holds either, and 19 by
   every condition. */
int all_ways_met(const ways_met *m, plain_edition edition, const char *where);

/* That those are all the fields that there are. */
int fields_counted(plain_edition edition);

/* Where each of the two came up least. */
void print_ways(const ways_met *m, plain_edition edition);

#endif
