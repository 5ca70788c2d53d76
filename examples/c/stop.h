/* Kills this process at a counted moment, as a loss of power would. For tests alone. */
#ifndef STOP_H
#define STOP_H

/* At which moment to kill, counted from 1. It is 0 at first, which is never. */
void stop_on_bus_at(unsigned long moment);
void stop_in_store_at(unsigned long moment);

/* A moment of the bus (two for each frame: before and after the gear take it), and one of the
 * store (four for each record: before the write, in its midst, before fsync, and after it). */
void stop_on_bus(void);
void stop_in_store(void);

#endif
