/* The loop that drives a machine: it does what the machine orders, and tells it what came of it. */
#ifndef CONTROLLER_H
#define CONTROLLER_H

#include "dali_c.h"
#include "gear.h"
#include "store.h"

enum run {
    /* The last order is DALI_DONE or DALI_HALT. */
    RUN_ENDED = 0,
    /* The machine refused a step: it was not at its start, or its bytes were changed. */
    RUN_REFUSED = 1,
    /* It has taken so many steps, and has not ended. */
    RUN_TOO_LONG = 2
};

/* Runs a machine that has not started, with the records that were read from this store. It starts by DALI_SURVEY, or
 * by DALI_START, which is only for gear that are to draw anew. */
enum run controller_run(struct dali_machine *machine, uint8_t start, struct bus *bus, struct store *store,
                        unsigned long most_steps, struct dali_order *last_order);

#endif
