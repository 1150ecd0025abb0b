/* The files that are searched: persons under one IDREC, each with so many lines. */
#ifndef SEARCHED_H
#define SEARCHED_H

#include <stddef.h>
#include <stdint.h>

/* The line of the IDREC; the first person stands behind it. */
enum { IDREC_LINE = 4 };

/* Persons, the lines of each, itself and records of thirteen amounts, and how far their CPFs are apart. */
typedef struct { const char *name; unsigned persons, lines, step; } searched;

/* "lines": persons alone; "groups": persons with five records each; "spread": the same with CPFs far apart. Exits where the name is none of
   these. */
const searched *searched_named(const char *name);

/* The CPF of the person at this place, from 0, with a NUL behind it. */
void searched_cpf(const searched *s, unsigned at, char *cpf);

/* Writes the file, the same bytes each time, into so much room; gives its length, and exits where it does not fit. */
size_t searched_make(const searched *s, char *out, size_t room);

#endif
