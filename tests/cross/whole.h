/* Whole declarations: places and order as documents 01 and 02 have them, the declarant's flags and the beneficiaries' indicators right too,
   though no rule asks for these yet. */
#ifndef WHOLE_H
#define WHOLE_H

#include "declaration.h"

/* An accepted declaration of some four to eighty lines, of either edition. */
void sound_declaration(declaration *d);

/* The same with more persons and companies below one record, up to seven each. */
void sound_crowd(declaration *d);

/* Whether records of this kind are in order by a key. */
int has_key(unsigned kind);

/* Whether a record of this kind may stand directly below a parent that is itself below `above`. */
int may_stand_below(const declaration *d, unsigned above, unsigned parent, unsigned kind);

#endif
