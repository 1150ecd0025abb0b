/* Small files for the lists of what may stand where: every kind behind every way in which records can be open. Whether it may stand there
   is asked of nobody. */
#ifndef PLACES_H
#define PLACES_H

#include "declaration.h"

/* How many ways there are, one of them with nothing open but the declarant. */
unsigned count_places(void);

/* The file of this edition and declarant (DECPF or DECPJ) with these records open, a line of this kind behind them, and FIMDirf. */
void place_file(plain_edition edition, unsigned declarant, unsigned place, unsigned kind, file_text *file);

#endif
