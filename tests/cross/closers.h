/* Demand 3 by running: a file cut after a whole line, and what may follow it. */
#ifndef CLOSERS_H
#define CLOSERS_H

#include "declaration.h"

/* The file up to the end of one of its lines, or up to its begin. */
void cut_at_line(file_text *file);

/* Puts the lines behind it that close a file of so many whole lines, with the SCP and the PSE that its declarant's flags ask for.
   Line 1 says the edition, and all that may follow it here is the same in both; with no line yet it is that of either. Gives how many. */
enum { MOST_CLOSERS = 4 };
unsigned close_file(file_text *file, unsigned lines);

/* Puts a tail of whole lines, of broken ones or of any bytes behind it. */
void add_tail(file_text *file);

#endif
