/* A port at the pins: one capture interrupt, one compare interrupt, one pin.
 *
 * The functions below do not interrupt each other: pins_send and pins_begin are called with both interrupts off. */
#ifndef PINS_H
#define PINS_H

#include "dali_c.h"

struct pins {
    struct dali_port port;
    struct dali_event event;
};

/* WHAT IS YOURS. A clock of microseconds in 32 bits, which also captures edges. */
uint32_t pins_clock(struct pins *pins);

/* Takes the edge that was captured: 1 with its time, 0 if there is none, and -1 if there were more than the unit holds. */
int pins_captured(struct pins *pins, uint32_t *time);

/* Whether the bus is low now. */
uint8_t pins_level(struct pins *pins);

/* Drives the bus low or not, and lets the compare interrupt come at a time, at once if that is past. */
void pins_drive(struct pins *pins, uint8_t is_low, uint32_t at);

/* Hands over what the machine is told, DALI_HEARD_SILENCE to DALI_LAPSED, or a frame of others that was read, to the task of the machine. */
void pins_tell(struct pins *pins, const struct dali_event *event);

/* WHAT YOU CALL. At power-up, */
void pins_begin(struct pins *pins);

/* with a frame that the machine ordered: DALI_OK, or why it is not taken, */
uint8_t pins_send(struct pins *pins, const struct dali_order *order, uint32_t drawn);

/* and in both interrupts. */
void pins_interrupt(struct pins *pins);

#endif
