/* What the breakers of the rules share with each other and with nobody else. Each gives 1 if something was changed. */
#ifndef FAULTS_INNER_H
#define FAULTS_INNER_H

#include "faults.h"

text_line *any_line(declaration *d);

/* Puts a line in that is like the one at `from`, if there is room. */
int copy_line(declaration *d, unsigned from, unsigned to);

/* 1 to 11 */
int not_closed(declaration *d);
int after_the_end(declaration *d);
int too_long(declaration *d);
int cut_short(declaration *d);
int wrong_end(declaration *d);
int no_last_bar(declaration *d);
int unknown(declaration *d);
int left_for_later(declaration *d);
int wrong_count(declaration *d);

/* 12, 20 and 21 */
int misplaced(declaration *d);
int not_greater(declaration *d);
int repeated(declaration *d);

/* 13 to 18: puts something else into a field past the identifier, of some line, that the number can be given for. */
int is_in_field(unsigned number);
int break_field(declaration *d, unsigned number);

/* The same in this field of a line, which has to be one of those. */
void break_field_of(text_line *line, unsigned f, unsigned number);

/* 19, and in a line; 0 where its record has no conditions. */
int broken_condition(declaration *d);
int break_conditions(text_line *line);

/* 26, and in one of these lines; each field of theirs that holds a CPF or a CNPJ is as likely. */
int wrong_digits(declaration *d);
int spoil_any(text_line *lines, unsigned count);

#endif
