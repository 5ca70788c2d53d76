/* A simulated bus by its levels, in whole us: a port at its pins, the gear of gear.h, and their troubles. A frame of the port is
 * destroyed in its midst; in place of one that lapses, others pull the bus low within it, while an answer may come, or before the
 * next one. */
#ifndef LINE_H
#define LINE_H

#include "gear.h"
#include "pins.h"

struct line {
    struct pins pins;
    struct bus *bus;
    /* Whether the bus is low for good. */
    uint8_t is_dead;
    /* The clock, the compare interrupt, and the last edge. */
    uint32_t now, compare, edge_at;
    /* When a frame was read last. */
    uint32_t read_at;
    uint8_t is_low, is_captured, is_driven, is_pulled, is_waiting, is_destroyed;
    /* What others pull low: so many half bits, the next one, and when it begins. */
    struct dali_levels others;
    uint32_t halves, half, half_at;
    struct dali_receiver reader;
    struct told told;
};

/* A controller is switched on, some time after it was off. */
void line_begin(struct line *line, struct bus *bus);

/* The port is to send a frame, which is destroyed or not. The status is that of dali_port_send. */
uint8_t line_put(struct line *line, const struct dali_order *order, int is_destroyed);

/* Time goes on to the next edge, to what the port waits for, or by so many us at most, and the port's interrupt comes. What it has
 * told, with input 0 if that is nothing. */
#define LINE_LONGEST UINT32_C(0x7FFFFFFF)
struct told line_wait(struct line *line, uint32_t most);

#endif
