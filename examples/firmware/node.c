/* A controller as a task of firmware. One task alone calls these functions, and it owns the node. */
#include "node.h"

/* How often each gear of the table is asked at last, if none answers. */
#define ROUNDS UINT32_C(3)
/* What tells the first byte of a random address. */
#define QUERY_RANDOM_ADDRESS_H 0xC2

/* A frame is put, as long as the runs may still end. */
static void put(struct node *node, const struct dali_order *order)
{
    node->state = node->frames < NODE_MOST_FRAMES ? NODE_ON_BUS : NODE_BUS_FAILS;
    node->frames++;
    if (node->state == NODE_ON_BUS)
        bus_put(order);
}

/* Asks the next gear of the table: a bus that has failed is as silent as one on which all gear are found. */
static void ask_next(struct node *node)
{
    struct dali_order order = {DALI_PUT, DALI_FIRST_PRIORITY, 0, QUERY_RANDOM_ADDRESS_H, 1, DALI_WHOLE, {0, {0, {0, 0, 0}}}, 0};
    struct dali_table table;

    if (dali_machine_table(&node->machine, &table) != DALI_OK) {
        node->state = NODE_FAILED;
    } else if (node->asked == ROUNDS * table.count) {
        node->state = NODE_BUS_FAILS;
    } else {
        order.address_byte = (uint8_t)(2 * table.gear[node->asked++ % table.count].short_address + 1);
        node->is_asking = 1;
        put(node, &order);
    }
}

static void answer_asked(struct node *node, uint8_t input)
{
    node->is_asking = 0;
    if (input == DALI_HEARD_BYTE)
        node->state = NODE_READY;
    else
        ask_next(node);
}

/* A new machine with the records of the one before. */
static int run_again(struct node *node)
{
    struct dali_records records;

    return dali_machine_records(&node->machine, &records) == DALI_OK && dali_machine_new(&node->machine, &records) == DALI_OK;
}

/* No run is to follow. */
static void finish(struct node *node, uint8_t next, const struct dali_order *order)
{
    node->asked = 0;
    if (next == DALI_NEXT_ASK)
        ask_next(node);
    else if (next == DALI_NEXT_READY)
        node->state = NODE_READY;
    else if (order->kind == DALI_DONE && next == DALI_NEXT_ENDED)
        node->state = order->reason == DALI_BLOCK_FULL ? NODE_BLOCK_FULL : NODE_BUS_FAILS;
    else
        node->state = order->kind == DALI_HALT && order->reason == DALI_CONFLICT ? NODE_CONFLICT : NODE_FAILED;
}

/* No transaction runs while a record is written, so the bus waits for nothing. */
static uint8_t keep(struct node *node, const struct dali_record *record)
{
    struct dali_records standing;

    if (dali_machine_records(&node->machine, &standing) == DALI_OK && pages_keep(&node->pages, &standing, record))
        return DALI_COMMITTED;
    return DALI_COMMIT_FAILED;
}

void node_told(struct node *node, uint8_t input, uint8_t byte)
{
    struct dali_order order;
    uint8_t next;

    if (node->is_asking) {
        answer_asked(node, input);
        return;
    }
    for (;;) {
        /* The struct is this task's alone, so it needs no test before each step. */
        if (dali_machine_go(&node->machine, input, byte, &order) != DALI_OK
            || dali_passes_step(&node->passes, input, &order, &next) != DALI_OK) {
            node->state = NODE_FAILED;
            return;
        }
        if (order.kind == DALI_PUT) {
            put(node, &order);
            return;
        }
        if (order.kind == DALI_COMMIT) {
            input = keep(node, &order.record);
        } else if (order.kind == DALI_DONE && next == DALI_NEXT_RUN && run_again(node)) {
            input = DALI_SURVEY;
        } else {
            finish(node, next, &order);
            return;
        }
    }
}

void node_begin(struct node *node, uint8_t first, uint8_t last, uint8_t start)
{
    struct dali_records records;

    node->state = NODE_FAILED;
    node->is_asking = 0;
    node->frames = 0;
    if (dali_c_version() != DALI_C_VERSION || dali_records_new(&records, first, last) != DALI_OK
        || dali_passes_new(&node->passes) != DALI_OK)
        return;
    if (pages_open(&node->pages, &records) != PAGES_OPEN || dali_machine_new(&node->machine, &records) != DALI_OK)
        return;
    node_told(node, start, 0);
}
