/* The totals of the value records, one place a kind; for the check alone. */
#ifndef PLAIN_TOTALS_H
#define PLAIN_TOTALS_H

#include "plain_place.h"

/* The places that are lent, as far as there are kinds for them; place 0 is no kind's. */
typedef struct { uint64_t *places; size_t count; } kind_totals;

/* All of them 0. What is lent past the last kind's place is not looked at. */
kind_totals plain_begin_totals(uint64_t *lent, size_t lent_len);

/* Adds the amounts of a line that was taken, if it is a value record whose place is lent. */
void plain_add_amounts(kind_totals t, plain_edition edition, const line *l);

#endif
