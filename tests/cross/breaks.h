/* Listed ways of breaking the rules of INFPC, INFPA, the health plan and what stands below them, each with the number that it has to be
   answered with. */
#ifndef BREAKS_H
#define BREAKS_H

#include "declaration.h"

/* How many there are. */
enum { BREAKS = 102 };

/* The number, and what is broken in words. */
unsigned break_number(unsigned which);
const char *break_words(unsigned which);

/* Breaks a declaration in this way. Gives the line, from 1, that has to be refused, or 0 where a record is missing for it. */
unsigned make_break(declaration *d, unsigned which);

/* One of those with this number, by chance; 0 where it could not be made. */
int any_break(declaration *d, unsigned number);

#endif
