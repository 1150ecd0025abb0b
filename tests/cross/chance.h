/* Numbers by chance, the same ones for the same seed. */
#ifndef CHANCE_H
#define CHANCE_H

#include <stdint.h>

void chance_from(uint64_t seed);

/* One of 0 to n - 1; n is not 0. */
uint32_t chance(uint32_t n);

/* Any 64-bit number. */
uint64_t chance64(void);

#endif
