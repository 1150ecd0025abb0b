/* What the figures have to keep to. */
#ifndef TARGETS_H
#define TARGETS_H

#include "figures.h"

/* At 60,000 lines, of every input: the most of the plain checker's instructions that the archive may take, and the most that a line's
   may grow. */
extern const double most_ratio, most_growth;

/* Prints the targets; 1 where all are met. */
int targets_print(const figures *f);

#endif
