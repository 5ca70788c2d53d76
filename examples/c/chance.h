/* Numbers from a seed (SplitMix64): the same seed gives the same numbers on every machine. */
#ifndef CHANCE_H
#define CHANCE_H

#include <stdint.h>

static inline uint64_t chance_next(uint64_t *chance)
{
    uint64_t mixed = *chance += UINT64_C(0x9E3779B97F4A7C15);

    mixed = (mixed ^ (mixed >> 30)) * UINT64_C(0xBF58476D1CE4E5B9);
    mixed = (mixed ^ (mixed >> 27)) * UINT64_C(0x94D049BB133111EB);
    return mixed ^ (mixed >> 31);
}

/* A number below `limit`, which is not 0. */
static inline uint32_t chance_below(uint64_t *chance, uint32_t limit)
{
    return (uint32_t)((chance_next(chance) >> 32) % limit);
}

#endif
