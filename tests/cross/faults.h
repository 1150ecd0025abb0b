/* Damage: one of the numbers of documents 01 and 02 brought about in a declaration, or bytes of a file changed. */
#ifndef FAULTS_H
#define FAULTS_H

#include "declaration.h"

/* A rule has the number that is given where it is broken. */
enum { CONDITION = 19, WRONG_DIGITS = 26, LAST_RULE = WRONG_DIGITS };

/* Tries to bring about this number. Gives 1 if something was changed. */
int break_rule(declaration *d, unsigned number);

/* Whether the number is one that break_rule knows: 1 to 21 and 26, but for 3 and 7, which are not in a file of this size. */
int can_break(unsigned number);

/* One of those from `least` on, which is at most the last. */
unsigned any_rule(unsigned least);

/* Breaks 19 or 26 in this line. Gives 0 where its record cannot have that number. */
int break_line(text_line *line, unsigned number);

/* Changes, drops, doubles or puts in a byte, or cuts the file anywhere. */
void damage_bytes(file_text *file);

#endif
