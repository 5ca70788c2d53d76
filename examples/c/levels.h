/* A simulated bus by its levels, and what a window hears there. */
#ifndef LEVELS_H
#define LEVELS_H

#include <stdint.h>

/* How often what was heard after a forward frame, and how many frames a receiver told. The sum is of all of this. */
struct levels_seen {
    uint32_t silences;
    uint32_t bytes;
    uint32_t damaged;
    uint32_t frames;
    uint32_t sum;
};

/* Sends frames, answers alone and together, and noise: first chosen ones, then `rounds` that are drawn. They are heard
 * by a window and by a receiver. What is wrong, or 0. */
const char *levels_try(uint64_t seed, uint32_t rounds, struct levels_seen *seen);

#endif
