/* The yardstick of the search's target. */
#ifndef BYTE_WALK_H
#define BYTE_WALK_H

#include "../tests/plain/plain.h"

/* What the search answers, by a plain walk over the bytes of an accepted file: one pass, byte by byte, that ends once the answer is known.
   It has no table, copies nothing and calls no library. 27 where the line is no IDREC. */
plain_found byte_walk(const uint8_t *file, size_t len, uint32_t line, const uint8_t *key, size_t key_len);

#endif
