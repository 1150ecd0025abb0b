/* A file of the most lines and the largest amounts, and its totals worked out by hand. */
#ifndef LARGEST_H
#define LARGEST_H

#include "declaration.h"

enum { LARGEST_LINES = 65536, LARGEST_BYTES = LARGEST_LINES * 200 };

/* Writes the edition's file, of at most so many bytes, and gives its length: accepted, with every value record of the edition, every amount
   of it 9,999,999,999,999, or 999,999,999 in the health plan, and every month count 9999; names and texts of value
   records are nines too, and no amounts. */
size_t largest_file(uint8_t *file, plain_edition edition);

/* What its lines of this kind come to, by multiplication; 0 of every other kind. */
uint64_t largest_total(plain_edition edition, unsigned kind);

#endif
