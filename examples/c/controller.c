/* The loop that drives a machine. This is the part to copy: put your bus for bus_send, and your
 * store for store_keep. */
#include "controller.h"

/* What to mind on a real bus:
 *
 * - Priority. An order of priority 3 begins a transaction: ask for the bus, and send when it is
 *   free for the settling time of that priority. One of priority 1 is the next frame of the running
 *   transaction: send it before another device can take the bus, and nothing else before it.
 * - Questions. Gear answer only if order->asks is 1. If anything is heard after another frame,
 *   tell DALI_DESTROYED.
 * - Send-twice commands. The machine orders both frames, each by itself; send each once, the second
 *   (order->half is DALI_SECOND_HALF) within 100 ms, and wait 100 ms after that of RANDOMISE.
 * - What is told. DALI_HEARD_SILENCE, DALI_HEARD_BYTE and DALI_HEARD_DAMAGED say that the forward
 *   frame was sent whole. If you are not sure of that, tell DALI_DESTROYED. Tell DALI_LAPSED
 *   if the bus was lost before the frame was sent, also if another device came between the
 *   frames of a transaction. The machine then begins the transaction again by itself.
 * - Bytes. Tell DALI_HEARD_BYTE only of a backward frame that was received without any fault, and
 *   DALI_HEARD_DAMAGED of all else that was heard, noise too. A damaged answer costs time alone;
 *   that no byte is told which no gear answered is what the machine rests on. */
static struct told put(struct bus *bus, const struct dali_order *order)
{
    return bus_send(bus, order->address_byte, order->opcode_byte);
}

/* The gear may be programmed as soon as the machine was told that the reservation is kept, so it
 * must be kept: on the medium, not in a buffer. If you cannot say so for sure, it has failed. */
static struct told commit(struct store *store, const struct dali_order *order)
{
    struct told told = {DALI_COMMITTED, 0};

    if (!store_keep(store, &order->record))
        told.input = DALI_COMMIT_FAILED;
    return told;
}

/* A loss of power may come at any moment in here, and nothing needs to be cleared up after it: a
 * new machine from the records in the store goes on. The machine itself need not be kept.
 *
 * No step waits or takes memory. If your firmware may not block, make the body of this loop the
 * handler of an event: the machine is all that it must find again. */
enum run controller_run(struct dali_machine *machine, uint8_t start, struct bus *bus, struct store *store,
                        unsigned long most_steps, struct dali_order *last_order)
{
    struct told told = {start, 0};

    while (most_steps-- > 0) {
        if (dali_machine_step(machine, told.input, told.byte, last_order) != DALI_OK)
            return RUN_REFUSED;
        switch ((enum dali_order_kind)last_order->kind) {
        case DALI_PUT:
            told = put(bus, last_order);
            break;
        case DALI_COMMIT:
            told = commit(store, last_order);
            break;
        case DALI_DONE:
        case DALI_HALT:
            return RUN_ENDED;
        case DALI_NOTHING_ORDERED: /* which no step gives */
            return RUN_REFUSED;
        }
    }
    return RUN_TOO_LONG;
}
