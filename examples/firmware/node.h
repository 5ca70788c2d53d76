/* A controller as a task of firmware: events in, orders out, and no call waits for the bus. */
#ifndef NODE_H
#define NODE_H

#include "dali_c.h"
#include "pages.h"

enum node_state {
    /* A frame is on its way: call node_told when you know what became of it. */
    NODE_ON_BUS = 0,
    /* Three runs in a row have found nothing more, and a gear answers. */
    NODE_READY = 1,
    /* A machine halted by DALI_CONFLICT: look at the site. */
    NODE_CONFLICT = 2,
    /* The store cannot be used, or the machine refused a step: start anew, and if that comes again, stop. */
    NODE_FAILED = 3,
    /* Gear are left, and no address of the block is free. */
    NODE_BLOCK_FULL = 4,
    /* The bus fails: a run gave up, the runs do not end, or no gear answers. Look at the bus, and begin again. */
    NODE_BUS_FAILS = 5
};

struct node {
    enum node_state state;
    struct dali_machine machine;
    struct pages pages;
    struct dali_passes passes;
    /* How often gear of the table were asked since the last run, and whether one is asked now. */
    uint32_t asked;
    int is_asking;
    /* How many frames were put since it began. */
    uint32_t frames;
};

/* Some hour and a half of the bus. 64 gear take 8,000 frames if nothing disturbs them. */
#define NODE_MOST_FRAMES UINT32_C(200000)

/* The bus, which is yours: begins to send a frame, and comes back at once. */
void bus_put(const struct dali_order *order);

/* Begins with the records in flash, at power-on and after a reset by a watchdog. */
void node_begin(struct node *node, uint8_t first, uint8_t last, uint8_t start);

/* What became of the frame that was put last: an input of dali_machine_step, and its byte. */
void node_told(struct node *node, uint8_t input, uint8_t byte);

#endif
