/* Line 1 where the two editions meet: what the one says beside what the other says, and what is nearly said. */
#ifndef MARKS_H
#define MARKS_H

#include "declaration.h"

/* Changes line 1 of a sound declaration in one of the ways that bear on which edition the file has. */
void cross_line_one(declaration *d);

/* What may stand where line 1 is looked for, and the edition that it picks; the last has no text. */
typedef struct { const char *text; uint32_t edition; } first_line;
extern const first_line first_lines[];

#endif
