/* Files for the two drivers, by seed: whole, with one rule broken, some in a listed way, with two, with bytes damaged, and noise. They are
   of either edition, and line 1 of some is crossed between the two. */
#ifndef CASES_H
#define CASES_H

#include "declaration.h"

/* What was done to a file: the numbers of up to two rules that were broken (0: none), whether line 1 was crossed, and whether bytes were
   damaged; and where the first rule was broken in a listed way (breaks.h), which one, from 1, and the line that has to be refused. */
typedef struct {
    unsigned first, second;
    int crossed, damaged;
    unsigned listed, line;
} plan;

/* Makes the file of this seed. A plan's rule that could not be broken stands as 0. */
plan make_file(uint64_t seed, declaration *d, file_text *file);

#endif
