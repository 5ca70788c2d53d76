/* Bytes from an interrupt to the loop, or from the loop to an interrupt. One side puts, the other takes. */
#ifndef RING_H
#define RING_H

#include <stdint.h>

#define RING_BYTES UINT32_C(128)

struct ring {
    volatile uint8_t bytes[RING_BYTES];
    /* How many were put, and taken. */
    volatile uint32_t put, taken;
};

static inline uint32_t ring_room(const struct ring *ring)
{
    return RING_BYTES - (ring->put - ring->taken);
}

static inline int ring_is_empty(const struct ring *ring)
{
    return ring->put == ring->taken;
}

/* A byte that finds no room is lost: the sum of its line shows it. */
static inline void ring_put(struct ring *ring, uint8_t byte)
{
    if (ring_room(ring) > 0)
        ring->bytes[ring->put++ % RING_BYTES] = byte;
}

/* The next byte, or -1. */
static inline int ring_take(struct ring *ring)
{
    int byte = -1;

    if (!ring_is_empty(ring)) {
        byte = ring->bytes[ring->taken % RING_BYTES];
        ring->taken++;
    }
    return byte;
}

#endif
