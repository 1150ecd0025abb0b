/* A slow second reading of the check, for tests alone. */
#ifndef TEST_NAIVE_H
#define TEST_NAIVE_H

#include "plain.h"

/* Fills entries of five numbers for every line read; table has room for all. */
plain_answer naive_check(const uint8_t *file, size_t len, uint32_t *table, size_t room);

/* The edition of a file, by cutting off its first piece, before the first CR LF or all of it, and then counting bars in it
   and looking back from the sixth. */
plain_edition naive_edition(const uint8_t *file, size_t len);

/* 0, or the number of the first breach of one field among 13 to 18 and 26. */
uint32_t naive_field(plain_edition edition, unsigned kind, unsigned f, const uint8_t *at, size_t len);

#endif
