/* An interface: the lines of a driver on a serial port, and a port at the pins of a bus (docs/INTERFACE.md).
 *
 * interface.c has the lines, and what is held back; one of the board_*.c has what is a board's. */
#ifndef INTERFACE_H
#define INTERFACE_H

#include "dali_c.h"

/* The version of the lines. */
#define INTERFACE_VERSION 1

/* WHAT IS THE BOARD'S. Its clocks, pins and interrupts, with the bus released. */
void board_begin(void);

/* A clock of microseconds in 32 bits. */
uint32_t board_clock(void);

/* Hands a frame to the port. Its status is that of dali_port_send. What became of the frame is told by interface_told. */
uint8_t board_send(const struct dali_order *order);

/* Releases the bus. The port begins anew, and tells nothing of the frame that it had. */
void board_release(void);

/* Sends the bytes that interface_next gives, until there are none. */
void board_say(void);

/* Tells the watchdog that all is well. */
void board_feed(void);

/* Lets no interrupt come, or lets them come again. */
void board_lock(void);
void board_unlock(void);

/* Waits for an interrupt, 20 ms at most. Interrupts are locked, and those that came since then end it at once. */
void board_rest(void);

/* WHAT A BOARD CALLS in its interrupts: what the port tells of a frame, an input of dali_machine_step with its byte; */
void interface_told(uint8_t input, uint8_t byte);

/* a byte that was received; one that is lost or wrong shows by the sum of its line; */
void interface_received(uint8_t byte);

/* the next byte to be sent, or -1. */
int interface_next(void);

#endif
