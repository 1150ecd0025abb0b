/* splitmix64: neighbouring seeds give unrelated runs. */
#include "chance.h"

static uint64_t state;

void chance_from(uint64_t seed)
{
    state = seed;
}

uint64_t chance64(void)
{
    uint64_t z = state += UINT64_C(0x9e3779b97f4a7c15);
    z = (z ^ (z >> 30)) * UINT64_C(0xbf58476d1ce4e5b9);
    z = (z ^ (z >> 27)) * UINT64_C(0x94d049bb133111eb);
    return z ^ (z >> 31);
}

uint32_t chance(uint32_t n)
{
    return (uint32_t)((chance64() >> 32) * n >> 32);
}
