/* Reaches each status of each call, and throws bytes at the calls that no call left there. What a
 * call refuses it must leave as it was; what it accepts it must answer with codes of the header.
 *
 *     statuses [ROUNDS [SEED]]
 *
 * Each round tries a machine, records, a window, a receiver and a port, some as they are, some with one byte
 * changed, some with all bytes at random; and it sends an answer and a frame by their levels. It says which of the first checks were wrong, and how many were right and
 * how many wrong; the status is 1 if one was wrong. */
#include "chance.h"
#include "controller.h"
#include "dali_c.h"
#include "gear.h"
#include "levels.h"

#include <stdio.h>
#include <stdlib.h>
#include <string.h>

#define ROUNDS 400000
#define MACHINES 128
#define UNTOUCHED 0xA5
#define NO_CODE 0xFF
#define MOST_TOLD 20

static unsigned long right;
static unsigned long wrong;

static void check(int is_so, const char *what)
{
    if (is_so) {
        right++;
    } else if (++wrong <= MOST_TOLD) {
        printf("wrong: %s\n", what);
    }
}

/* A call with this status wrote the thing, which was painted before, or left it untouched. */
static void check_written(const void *thing, size_t size, uint8_t status, const char *what)
{
    static uint8_t untouched[sizeof(struct dali_machine)];

    memset(untouched, UNTOUCHED, size);
    check((memcmp(thing, untouched, size) == 0) == (status != DALI_OK), what);
}

/* The struct is laid out as the library lays it out: of bytes alone, without a gap. */
#define CHECK_LAYOUT(type, size)                                                                   \
    do {                                                                                           \
        struct aligned {                                                                           \
            char before;                                                                           \
            struct type it;                                                                        \
        };                                                                                         \
        check(sizeof(struct type) == (size), "the size of " #type);                                \
        check(sizeof(struct aligned) == (size) + 1, "the alignment of " #type);                    \
    } while (0)

static void check_layouts(void)
{
    CHECK_LAYOUT(dali_record, 5);
    CHECK_LAYOUT(dali_records, 516);
    CHECK_LAYOUT(dali_order, 12);
    CHECK_LAYOUT(dali_machine, 640);
    CHECK_LAYOUT(dali_table, 257);
    CHECK_LAYOUT(dali_progress, 3);
    CHECK_LAYOUT(dali_passes, 3);
    CHECK_LAYOUT(dali_levels, 40);
    CHECK_LAYOUT(dali_receiver, 10);
    CHECK_LAYOUT(dali_told, 8);
    CHECK_LAYOUT(dali_window, 16);
    CHECK_LAYOUT(dali_heard, 3);
    check(sizeof(struct dali_port) == 104 && sizeof(struct dali_event) == 16, "the size of a port and its event");
}

static struct dali_record record_of(uint8_t kind, uint8_t short_address, uint32_t random_address)
{
    struct dali_random random = {(uint8_t)(random_address >> 16), (uint8_t)(random_address >> 8),
                                 (uint8_t)random_address};

    return (struct dali_record){kind, {short_address, random}};
}

/* Each call must answer so, and leave everything untouched if it refuses. */

static void check_records_new(uint8_t first, uint8_t last, uint8_t status)
{
    struct dali_records records;

    memset(&records, UNTOUCHED, sizeof records);
    check(dali_records_new(&records, first, last) == status, "the status of dali_records_new");
    check_written(&records, sizeof records, status, "what dali_records_new writes");
    if (status == DALI_OK)
        check(records.first == first && records.last == last && records.reserved.count == 0
                  && records.enrolled.count == 0,
              "what dali_records_new makes");
}

static void check_add(struct dali_records *records, struct dali_record addition, uint8_t status)
{
    struct dali_records before = *records;

    check(dali_records_add(records, &addition) == status, "the status of dali_records_add");
    check((memcmp(records, &before, sizeof before) == 0) == (status != DALI_OK),
          "what dali_records_add changes");
}

static void check_new(const struct dali_records *records, uint8_t status)
{
    struct dali_machine machine;

    memset(&machine, UNTOUCHED, sizeof machine);
    check(dali_machine_new(&machine, records) == status, "the status of dali_machine_new");
    check_written(&machine, sizeof machine, status, "what dali_machine_new writes");
}

/* A stop has the status of a step, and leaves the records of one. */
static void check_stop(const struct dali_machine *before, uint8_t input, uint8_t byte, uint8_t status)
{
    struct dali_machine stepped = *before;
    struct dali_machine machine = *before;
    struct dali_order order;

    dali_machine_step(&stepped, input, byte, &order);
    memset(&order, UNTOUCHED, sizeof order);
    check(dali_machine_stop(&machine, input, byte, &order) == status, "the status of a stop");
    check_written(&order, sizeof order, status, "the order of a stop");
    check(memcmp(&machine.records, &stepped.records, sizeof machine.records) == 0, "the records after a stop");
    check(status == DALI_OK || memcmp(&machine, before, sizeof machine) == 0, "a stop refuses and changes");
}

/* A step and a stop, and if the struct holds a machine the same step by dali_machine_go. */
static void check_step(struct dali_machine *machine, uint8_t input, uint8_t byte, uint8_t status)
{
    struct dali_machine before = *machine;
    struct dali_machine other = *machine;
    struct dali_order order;
    struct dali_order other_order;

    memset(&order, UNTOUCHED, sizeof order);
    memset(&other_order, UNTOUCHED, sizeof other_order);
    check(dali_machine_step(machine, input, byte, &order) == status, "the status of a step");
    check_written(&order, sizeof order, status, "the order of a step");
    if (status != DALI_OK)
        check(memcmp(machine, &before, sizeof before) == 0, "a step refuses and changes");
    check_stop(&before, input, byte, status);
    if (status == DALI_NO_MACHINE || status == DALI_OTHER_VERSION)
        return;
    check(dali_machine_go(&other, input, byte, &other_order) == status, "the status of dali_machine_go");
    check(memcmp(&other, machine, sizeof other) == 0, "the machine after dali_machine_go");
    check(memcmp(&other_order, &order, sizeof order) == 0, "the order of dali_machine_go");
}

/* Whether the header has such a code. The switch has no default, as those below. */
static int is_phase(enum dali_phase phase)
{
    switch (phase) {
    case DALI_NOT_STARTED:
    case DALI_ASKING:
    case DALI_SEARCHING:
    case DALI_PROGRAMMING:
    case DALI_ENDING:
    case DALI_OVER:
        return 1;
    }
    return 0;
}

static void check_reads(const struct dali_machine *machine, uint8_t status)
{
    struct dali_order order;
    struct dali_records records;
    struct dali_table table;
    struct dali_progress progress;
    uint8_t due = UNTOUCHED;
    uint8_t answered;

    memset(&order, UNTOUCHED, sizeof order);
    memset(&records, UNTOUCHED, sizeof records);
    memset(&table, UNTOUCHED, sizeof table);
    memset(&progress, UNTOUCHED, sizeof progress);
    /* What is due is read of the last order alone, so other bytes that hold no machine are passed over. */
    answered = dali_machine_due(machine, &due);
    check(answered == DALI_OK || (status != DALI_OK && answered == DALI_NO_MACHINE), "the status of dali_machine_due");
    check(dali_machine_check(machine) == status, "the status of dali_machine_check");
    check(dali_machine_last(machine, &order) == status, "the status of dali_machine_last");
    check(dali_machine_records(machine, &records) == status, "the status of dali_machine_records");
    check(dali_machine_table(machine, &table) == status, "the status of dali_machine_table");
    check(dali_machine_progress(machine, &progress) == status, "the status of dali_machine_progress");
    check_written(&progress, sizeof progress, status, "what dali_machine_progress writes");
    if (status == DALI_OK)
        check(is_phase(progress.phase) && progress.short_address <= DALI_ADDRESSES && progress.gear == records.enrolled.count,
              "how far a machine is");
    check_written(&due, sizeof due, answered, "what dali_machine_due writes");
    check_written(&order, sizeof order, status, "what dali_machine_last writes");
    check_written(&records, sizeof records, status, "what dali_machine_records writes");
    check_written(&table, sizeof table, status, "what dali_machine_table writes");
}

static void reach_statuses(void)
{
    struct dali_records none;
    struct dali_records records;
    struct dali_machine machine;

    check(dali_c_version() == DALI_C_VERSION, "the version of the library");
    check_records_new(0, 63, DALI_OK);
    check_records_new(63, 0, DALI_OK);
    check_records_new(64, 0, DALI_BAD_ARGUMENT);
    check_records_new(0, 64, DALI_BAD_ARGUMENT);

    memset(&none, 0xFF, sizeof none);
    dali_records_new(&records, 2, 5);
    check_add(&none, record_of(DALI_RESERVE, 2, 0x123456), DALI_NO_RECORDS);
    check_add(&none, record_of(0, 64, 0xFFFFFF), DALI_NO_RECORDS);
    check_add(&records, record_of(0, 2, 0x123456), DALI_BAD_ARGUMENT);
    check_add(&records, record_of(4, 2, 0x123456), DALI_BAD_ARGUMENT);
    check_add(&records, record_of(DALI_RESERVE, 64, 0x123456), DALI_BAD_ARGUMENT);
    check_add(&records, record_of(DALI_RESERVE, 1, 0x123456), DALI_DOES_NOT_FIT);
    check_add(&records, record_of(DALI_RESERVE, 6, 0x123456), DALI_DOES_NOT_FIT);
    check_add(&records, record_of(DALI_RESERVE, 2, 0xFFFFFF), DALI_DOES_NOT_FIT);
    check_add(&records, record_of(DALI_ENROL, 2, 0xFFFFFF), DALI_DOES_NOT_FIT);
    check_add(&records, record_of(DALI_RELEASE, 6, 0x123456), DALI_DOES_NOT_FIT);
    check_add(&records, record_of(DALI_RELEASE, 2, 0x123456), DALI_NOT_RESERVED);
    check_add(&records, record_of(DALI_RESERVE, 2, 0x123456), DALI_OK);
    check_add(&records, record_of(DALI_RESERVE, 2, 0x123456), DALI_ADDRESS_TAKEN);
    check_add(&records, record_of(DALI_RESERVE, 2, 0x654321), DALI_ADDRESS_TAKEN);
    check_add(&records, record_of(DALI_RESERVE, 3, 0x123456), DALI_RANDOM_TAKEN);
    check_add(&records, record_of(DALI_RELEASE, 2, 0x654321), DALI_NOT_RESERVED);
    check_add(&records, record_of(DALI_ENROL, 9, 0x123456), DALI_OK);
    check_add(&records, record_of(DALI_ENROL, 9, 0x654321), DALI_ADDRESS_TAKEN);
    check_add(&records, record_of(DALI_ENROL, 2, 0x123456), DALI_RANDOM_TAKEN);
    check_add(&records, record_of(DALI_RELEASE, 2, 0x123456), DALI_OK);

    check_new(&none, DALI_NO_RECORDS);
    check_new(&records, DALI_OK);

    memset(&machine, 0xFF, sizeof machine);
    check_reads(&machine, DALI_OTHER_VERSION);
    check_step(&machine, DALI_START, 0, DALI_OTHER_VERSION);
    machine.version = DALI_C_VERSION;
    check_reads(&machine, DALI_NO_MACHINE);
    check_step(&machine, DALI_START, 0, DALI_NO_MACHINE);
    check_step(&machine, DALI_SURVEY + 1, 0, DALI_NO_MACHINE);
    dali_machine_new(&machine, &records);
    check_reads(&machine, DALI_OK);
    check_step(&machine, DALI_SURVEY + 1, 0, DALI_BAD_ARGUMENT);
    check_step(&machine, DALI_HEARD_SILENCE, 0, DALI_NOT_DUE);
    check_step(&machine, DALI_START, 0, DALI_OK);
    check_reads(&machine, DALI_OK);
    check_step(&machine, DALI_START, 0, DALI_NOT_DUE);
    check_step(&machine, 0xFF, 0, DALI_BAD_ARGUMENT);
    check_step(&machine, DALI_COMMITTED, 0, DALI_NOT_DUE);
    check_step(&machine, DALI_SURVEY, 0, DALI_NOT_DUE);
    check_step(&machine, DALI_LAPSED, 0, DALI_OK);
    dali_machine_new(&machine, &records);
    check_step(&machine, DALI_SURVEY, 0, DALI_OK);
    check_reads(&machine, DALI_OK);
    check_step(&machine, DALI_START, 0, DALI_NOT_DUE);
    check_step(&machine, DALI_HEARD_DAMAGED, 0, DALI_OK);
    check_reads(&machine, DALI_OK);
    machine.version--;
    check_reads(&machine, DALI_OTHER_VERSION);
    check_step(&machine, DALI_HEARD_SILENCE, 0, DALI_OTHER_VERSION);
}

/* Whether the header has such a code. None of these switches has a default, so that the compiler
 * tells a code which the header has and a switch has not. */

static int is_end(enum dali_end end)
{
    switch (end) {
    case DALI_ALL_FOUND:
    case DALI_BLOCK_FULL:
    case DALI_GAVE_UP:
        return 1;
    }
    return 0;
}

static int is_fault(enum dali_fault fault)
{
    switch (fault) {
    case DALI_CONFLICT:
    case DALI_STORE:
        return 1;
    }
    return 0;
}

static int is_record_kind(enum dali_record_kind kind)
{
    switch (kind) {
    case DALI_RESERVE:
    case DALI_ENROL:
    case DALI_RELEASE:
        return 1;
    }
    return 0;
}

/* Whether a backward frame is awaited: after COMPARE, VERIFY SHORT ADDRESS, QUERY SHORT ADDRESS, and QUERY RANDOM
 * ADDRESS (H), (M) and (L). */
static int is_question(const struct dali_order *order)
{
    switch (order->address_byte) {
    case 0xA9:
    case 0xB9:
    case 0xBB:
        return 1;
    default:
        return order->address_byte < 0x80 && order->address_byte % 2 == 1 && order->opcode_byte >= 0xC2
               && order->opcode_byte <= 0xC4;
    }
}

/* Which half of a pair a frame is, by the order before it and by what was told of that. */
static int half_after(const struct dali_order *before, const struct told *told, const struct dali_order *order)
{
    int heard = told->input >= DALI_HEARD_SILENCE && told->input <= DALI_HEARD_DAMAGED;
    int again = before->address_byte == order->address_byte && before->opcode_byte == order->opcode_byte;

    /* INITIALISE and RANDOMISE. */
    if (order->kind != DALI_PUT || (order->address_byte != 0xA5 && order->address_byte != 0xA7))
        return DALI_WHOLE;
    return heard && again && before->half == DALI_FIRST_HALF ? DALI_SECOND_HALF : DALI_FIRST_HALF;
}

/* The codes of an order that a step gives, and nothing in what its kind does not name. */
static int is_order(const struct dali_order *order)
{
    struct dali_order plain = {order->kind, 0, 0, 0, 0, 0, {0, {0, {0, 0, 0}}}, 0};
    int is_one = 0;

    switch ((enum dali_order_kind)order->kind) {
    case DALI_PUT:
        plain.priority = order->priority;
        plain.address_byte = order->address_byte;
        plain.opcode_byte = order->opcode_byte;
        plain.asks = (uint8_t)is_question(order);
        plain.half = order->half;
        is_one = (order->priority == DALI_FIRST_PRIORITY || order->priority == DALI_LATER_PRIORITY)
                 && order->half <= DALI_SECOND_HALF;
        break;
    case DALI_COMMIT:
        plain.record = order->record;
        is_one = is_record_kind(order->record.kind)
                 && order->record.pair.short_address < DALI_ADDRESSES;
        break;
    case DALI_DONE:
        plain.reason = order->reason;
        is_one = is_end(order->reason);
        break;
    case DALI_HALT:
        plain.reason = order->reason;
        is_one = is_fault(order->reason);
        break;
    case DALI_NOTHING_ORDERED:
        break;
    }
    return is_one && memcmp(order, &plain, sizeof plain) == 0;
}

/* What is due after an order of this kind, or NO_CODE if that is none. */
static uint8_t due_after(enum dali_order_kind kind)
{
    switch (kind) {
    case DALI_NOTHING_ORDERED:
        return DALI_DUE_START;
    case DALI_PUT:
        return DALI_DUE_BUS;
    case DALI_COMMIT:
        return DALI_DUE_STORE;
    case DALI_DONE:
    case DALI_HALT:
        return DALI_DUE_NOTHING;
    }
    return NO_CODE;
}

/* What is due when this input may come, or NO_CODE if that is none. */
static uint8_t due_for(enum dali_input input)
{
    switch (input) {
    case DALI_START:
    case DALI_SURVEY:
        return DALI_DUE_START;
    case DALI_HEARD_SILENCE:
    case DALI_HEARD_BYTE:
    case DALI_HEARD_DAMAGED:
    case DALI_DESTROYED:
    case DALI_LAPSED:
        return DALI_DUE_BUS;
    case DALI_COMMITTED:
    case DALI_COMMIT_FAILED:
        return DALI_DUE_STORE;
    }
    return NO_CODE;
}

/* Any bytes: the calls must agree whether they are a machine. */
static void try_machine(const struct dali_machine *given, uint8_t input, uint8_t byte)
{
    struct dali_machine machine = *given;
    struct dali_order last;
    struct dali_order order;
    struct dali_records records;
    struct dali_table table;
    uint8_t due = UNTOUCHED;
    uint8_t refusal = machine.version == DALI_C_VERSION ? DALI_NO_MACHINE : DALI_OTHER_VERSION;

    if (dali_machine_check(&machine) != DALI_OK) {
        check_reads(&machine, refusal);
        check_step(&machine, input, byte, refusal);
        return;
    }
    check_reads(&machine, DALI_OK);
    dali_machine_due(&machine, &due);
    dali_machine_last(&machine, &last);
    dali_machine_records(&machine, &records);
    dali_machine_table(&machine, &table);
    check(due != NO_CODE && due == due_after(last.kind), "what is due, by the last order");
    check(table.count == records.enrolled.count, "the count of the table");
    check(memcmp(table.gear, records.enrolled.pairs, sizeof table.gear) == 0, "the table");
    check_new(&records, DALI_OK);
    check(memcmp(&machine, given, sizeof machine) == 0, "a call that reads changes the machine");
    if (due_for(input) == NO_CODE) {
        check_step(&machine, input, byte, DALI_BAD_ARGUMENT);
    } else if (due != due_for(input)) {
        check_step(&machine, input, byte, DALI_NOT_DUE);
    } else {
        check_step(&machine, input, byte, DALI_OK);
        check(dali_machine_last(&machine, &order) == DALI_OK, "a machine after a step");
        check(is_order(&order), "the codes of an order");
        check_reads(&machine, DALI_OK);
    }
}

/* Any bytes as a window, and the receiver in it: the calls take those that a call may have left there, with a level that
 * is one, and no others. */
static void try_window(const struct dali_window *given, uint8_t is_low, uint32_t micros)
{
    struct dali_window window = *given;
    struct dali_receiver receiver = given->receiver;
    struct dali_heard heard;
    struct dali_told told;
    int is_receiver = receiver.reading <= 4 && receiver.is_low <= 1;
    /* What it has heard, and 4 more if it has passed over a pulse. */
    uint8_t code = window.heard >= 4 ? (uint8_t)(window.heard - 4) : window.heard;
    int is_window = is_receiver && code >= DALI_HEARD_SILENCE && code <= DALI_HEARD_DAMAGED;
    uint8_t status = is_window && is_low <= 1 ? DALI_OK : DALI_BAD_ARGUMENT;

    check(dali_window_edge(&window, is_low, micros) == status, "the status of dali_window_edge");
    check(memcmp(&window, given, status == DALI_OK ? 0 : sizeof window) == 0, "a refused edge changes a window");
    check(status != DALI_OK || window.receiver.is_low == is_low, "the level of a window after an edge");
    window = *given;
    status = is_window ? DALI_OK : DALI_BAD_ARGUMENT;
    memset(&heard, UNTOUCHED, sizeof heard);
    check(dali_window_time(&window, micros, &heard) == status, "the status of dali_window_time");
    check_written(&heard, sizeof heard, status, "what dali_window_time writes");
    check(memcmp(&window, given, status == DALI_OK ? 0 : sizeof window) == 0, "a refused time changes a window");
    check(status != DALI_OK || heard.is_over == (heard.input != 0), "what a window tells, and whether it is over");
    check(status != DALI_OK || micros <= 50000 || heard.is_over == 1, "a window that does not end");
    status = is_receiver && is_low <= 1 ? DALI_OK : DALI_BAD_ARGUMENT;
    memset(&told, UNTOUCHED, sizeof told);
    check(dali_receiver_edge(&receiver, is_low, micros, &told) == status, "the status of dali_receiver_edge");
    check_written(&told, sizeof told, status, "what dali_receiver_edge writes");
    receiver = given->receiver;
    status = is_receiver ? DALI_OK : DALI_BAD_ARGUMENT;
    memset(&told, UNTOUCHED, sizeof told);
    check(dali_receiver_time(&receiver, micros, &told) == status, "the status of dali_receiver_time");
    check_written(&told, sizeof told, status, "what dali_receiver_time writes");
    check(memcmp(&receiver, &given->receiver, status == DALI_OK ? 0 : sizeof receiver) == 0,
          "a refused time changes a receiver");
}

/* Bytes of a window that has heard anything, or one. */
static struct dali_window some_window(uint64_t *chance)
{
    struct dali_window window;
    uint8_t *bytes = (uint8_t *)&window;

    for (size_t at = 0; at < sizeof window; at++)
        bytes[at] = (uint8_t)chance_next(chance);
    window.receiver.reading = (uint8_t)chance_below(chance, 6);
    window.receiver.is_low = (uint8_t)(chance_below(chance, 33) / 16);
    window.heard = (uint8_t)chance_below(chance, 9);
    return window;
}

/* After a step by this input, which gave this order, this is to be done; 0xFF if the call is refused. */
static void check_pass(struct dali_passes *passes, uint8_t input, uint8_t kind, uint8_t reason, uint8_t wanted)
{
    struct dali_order order = {kind, DALI_FIRST_PRIORITY, 0, 0, 0, 0, {DALI_ENROL, {0, {0, 0, 0}}}, reason};
    struct dali_passes before = *passes;
    uint8_t next = 0xFF, status = dali_passes_step(passes, input, &order, &next);

    check(status == (wanted == 0xFF ? DALI_BAD_ARGUMENT : DALI_OK), "the status of dali_passes_step");
    check(next == wanted, "what is to be done next");
    check(status == DALI_OK || memcmp(passes, &before, sizeof before) == 0, "what dali_passes_step changes");
}

/* Runs until a controller is ready, and runs that end otherwise. */
static void reach_passes(void)
{
    struct dali_passes passes;

    for (int heard = 0; heard < 2; heard++) {
        check(dali_passes_new(&passes) == DALI_OK, "the status of dali_passes_new");
        check_pass(&passes, DALI_SURVEY, DALI_NOTHING_ORDERED, 0, 0xFF);
        check_pass(&passes, DALI_HEARD_BYTE, DALI_PUT, 0, DALI_NEXT_ORDER);
        check_pass(&passes, DALI_HEARD_SILENCE, DALI_DONE, DALI_ALL_FOUND, DALI_NEXT_RUN);
        check_pass(&passes, DALI_HEARD_BYTE, DALI_DONE, DALI_ALL_FOUND, DALI_NEXT_RUN);
        /* This run commits, so three more must be quiet. */
        check_pass(&passes, DALI_HEARD_BYTE, DALI_COMMIT, 0, DALI_NEXT_ORDER);
        for (int run = 0; run < 3; run++)
            check_pass(&passes, DALI_HEARD_DAMAGED, DALI_DONE, DALI_ALL_FOUND, DALI_NEXT_RUN);
        check_pass(&passes, heard ? DALI_HEARD_BYTE : DALI_LAPSED, DALI_PUT, 0, DALI_NEXT_ORDER);
        check_pass(&passes, DALI_HEARD_SILENCE, DALI_DONE, DALI_ALL_FOUND, heard ? DALI_NEXT_READY : DALI_NEXT_ASK);
        check_pass(&passes, DALI_HEARD_BYTE, DALI_PUT, 0, 0xFF);
    }
    check(dali_passes_new(&passes) == DALI_OK, "the status of dali_passes_new");
    check_pass(&passes, DALI_HEARD_SILENCE, DALI_DONE, DALI_GAVE_UP, DALI_NEXT_ENDED);
    check_pass(&passes, DALI_HEARD_SILENCE, DALI_DONE, DALI_BLOCK_FULL, DALI_NEXT_ENDED);
    check_pass(&passes, DALI_COMMIT_FAILED, DALI_HALT, DALI_STORE, DALI_NEXT_ENDED);
    check_pass(&passes, DALI_HEARD_BYTE, DALI_HALT, DALI_STORE + 1, 0xFF);
    check_pass(&passes, DALI_HEARD_BYTE, DALI_HALT + 1, 0, 0xFF);
}

/* A run that is to end after so many steps, on a bus without troubles: how many frames it sends then. */
static int stop_after(int steps, uint8_t start, struct bus *bus, struct dali_records *records)
{
    struct told told = {start, 0};
    struct dali_machine machine;
    struct dali_order order = {DALI_NOTHING_ORDERED, 0, 0, 0, 0, 0, {0, {0, {0, 0, 0}}}, 0};
    uint8_t last = 0;
    int frames = 0;

    dali_machine_new(&machine, records);
    for (int step = 0; order.kind != DALI_DONE && step < steps + 100; step++) {
        uint8_t status = step < steps ? dali_machine_step(&machine, told.input, told.byte, &order)
                                      : dali_machine_stop(&machine, told.input, told.byte, &order);

        if (status != DALI_OK)
            break;
        frames += order.kind == DALI_PUT && step >= steps;
        if (order.kind == DALI_PUT)
            last = order.address_byte;
        told = order.kind == DALI_PUT ? bus_send(bus, order.address_byte, order.opcode_byte) : (struct told){DALI_COMMITTED, 0};
    }
    dali_machine_records(&machine, records);
    check(order.kind == DALI_DONE && last == 0xA1, "a run that is to end does not end by TERMINATE");
    return frames;
}

/* Runs that are to end at each step: no reservation is left without its gear, and a later run addresses all. */
static void reach_stops(void)
{
    for (int steps = 0; steps < 500; steps++) {
        struct dali_records records;
        struct bus bus;

        bus_new(&bus, 7, 3);
        dali_records_new(&records, 0, 63);
        check(stop_after(steps, steps % 2 ? DALI_START : DALI_SURVEY, &bus, &records) <= 14, "a run ends late");
        check(records.reserved.count == records.enrolled.count, "a reservation is left without its gear");
        for (int at = 0; at < records.enrolled.count; at++)
            check(memcmp(&records.reserved.pairs[at], &records.enrolled.pairs[at], sizeof *records.enrolled.pairs) == 0,
                  "another gear is enrolled");
        stop_after(100000, DALI_SURVEY, &bus, &records);
        check(records.enrolled.count == 3, "a run after one that was stopped");
    }
}

/* Each status of the calls at the pins, at what they make and at bytes that are none. */
static void reach_pins(unsigned long rounds, uint64_t seed)
{
    struct dali_window window;
    struct levels_seen seen;
    const char *is_wrong = levels_try(seed, (uint32_t)rounds / 20, &seen);

    memset(&window, UNTOUCHED, sizeof window);
    check(dali_receiver_new(&window.receiver) == DALI_OK, "the status of dali_receiver_new");
    try_window(&window, 1, 20000);
    check(dali_window_new(&window) == DALI_OK, "the status of dali_window_new");
    try_window(&window, 0, 12401);
    try_window(&window, 2, 12401);
    memset(&window, 0, sizeof window);
    try_window(&window, 1, 12401);
    check(!is_wrong, is_wrong ? is_wrong : "levels");
    printf("silence %lu, a byte %lu and damaged %lu times, %lu frames; ", (unsigned long)seen.silences,
           (unsigned long)seen.bytes, (unsigned long)seen.damaged, (unsigned long)seen.frames);
}

/* A call of a port has this status, and it writes nothing if it is refused. */
static void check_port(uint8_t status, uint8_t wanted, const struct dali_port *port, const struct dali_port *before,
                       const struct dali_event *event, const char *what)
{
    check(status == wanted, what);
    check_written(event, sizeof *event, status, what);
    check(status == DALI_OK || memcmp(port, before, sizeof *port) == 0, what);
}

/* Each call of a port in turn: all bytes of `given` are some, and the call that is chosen gets this level, time and frame. */
static uint8_t port_call(struct dali_port *port, uint32_t call, uint8_t is_low, uint32_t now, const struct dali_order *order,
                         struct dali_event *event)
{
    memset(event, UNTOUCHED, sizeof *event);
    switch (call % 4) {
    case 0:
        return dali_port_edge(port, is_low, now, event);
    case 1:
        return dali_port_lost(port, is_low, now, event);
    case 2:
        return dali_port_timer(port, now, event);
    default:
        return dali_port_send(port, order, now % 1201, now, event);
    }
}

/* Each status of a port, and what it tells of a frame that no gear answers. */
static void reach_port(void)
{
    struct dali_order order = {DALI_PUT, DALI_FIRST_PRIORITY, 0xA9, 0, 1, DALI_WHOLE, {0, {0, {0, 0, 0}}}, 0};
    struct dali_port port, before;
    struct dali_event event;
    uint32_t now = UINT32_C(0xFFFFFFFF) - 9000;
    uint8_t was_low = 0;

    check(dali_port_new(&port, 2, now, &event) == DALI_BAD_ARGUMENT, "a level that is none");
    check(dali_port_new(&port, 0, now, &event) == DALI_OK, "the status of dali_port_new");
    before = port;
    for (uint32_t call = 0; call < 4; call++) {
        check_port(port_call(&port, call, 0, now - 1, &order, &event), DALI_BACKWARDS, &port, &before, &event, "a time before");
        if (call < 2)
            check_port(port_call(&port, call, 2, now, &order, &event), DALI_BAD_ARGUMENT, &port, &before, &event, "a level");
    }
    check(dali_port_send(&port, &order, 1401, now, &event) == DALI_BAD_ARGUMENT, "what is drawn is too much");
    order.half = DALI_SECOND_HALF;
    check(dali_port_send(&port, &order, 0, now, &event) == DALI_BAD_ARGUMENT, "a second half of priority 3");
    order.half = DALI_WHOLE;
    order.kind = DALI_COMMIT;
    check(dali_port_send(&port, &order, 0, now, &event) == DALI_BAD_ARGUMENT, "an order that is no frame");
    order.kind = DALI_PUT;
    check(dali_port_send(&port, &order, 7, now, &event) == DALI_OK, "the status of dali_port_send");
    check(dali_port_send(&port, &order, 7, now, &event) == DALI_BUSY, "a second frame");
    /* The bus follows at once. */
    for (int calls = 0; event.input == 0 && calls < 100; calls++) {
        now = event.at;
        check(dali_port_timer(&port, now, &event) == DALI_OK, "the status of dali_port_timer");
        if (event.input == 0 && event.is_low != was_low)
            check(dali_port_edge(&port, was_low = event.is_low, now, &event) == DALI_OK, "the status of dali_port_edge");
    }
    check(event.input == DALI_HEARD_SILENCE && event.is_low == 0, "what is told of a frame that no gear answers");
    check(dali_port_lost(&port, 1, now, &event) == DALI_OK, "the status of dali_port_lost");
    check(dali_port_timer(&port, now + 500000, &event) == DALI_OK && event.read.kind == DALI_NO_POWER, "a bus without power");
}

/* Any bytes as a port: what they tell has codes of the header. */
static void try_port(uint64_t *chance)
{
    struct dali_order order = {DALI_PUT, (uint8_t)chance_below(chance, 7), 0xA7, 0, 0, (uint8_t)chance_below(chance, 4), {0, {0, {0, 0, 0}}}, 0};
    struct dali_port port, before;
    struct dali_event event;
    uint8_t *bytes = (uint8_t *)&port, status;

    for (size_t at = 0; at < sizeof port; at++)
        bytes[at] = (uint8_t)chance_next(chance);
    port.called >>= chance_below(chance, 40);
    port.edge = port.called - chance_below(chance, 600000);
    port.since = port.called - chance_below(chance, 2000);
    port.priority %= 7;
    port.half %= 4;
    port.phase %= 6;
    port.reading %= 6;
    port.heard %= 4;
    before = port;
    status = port_call(&port, chance_below(chance, 4), (uint8_t)chance_below(chance, 2), (uint32_t)port.called + chance_below(chance, 100000), &order,
                       &event);
    check(status == DALI_OK || status == DALI_BUSY || status == DALI_BAD_ARGUMENT, "the status of any port");
    check_port(status, status, &port, &before, &event, "any port");
    check(status != DALI_OK || (event.input <= DALI_LAPSED && event.read.kind <= DALI_NO_POWER && event.is_low <= 1 && event.next <= 1),
          "the codes of an event");
}

/* A list has so many pairs, and this one is the last. */
static void check_last(const struct dali_pairs *list, int count, const struct dali_pair *pair)
{
    check(list->count == count && memcmp(&list->pairs[count - 1], pair, sizeof *pair) == 0,
          "what was added");
}

/* Any bytes as records, and any as an addition. */
static void try_records(const struct dali_records *given, const struct dali_record *addition)
{
    struct dali_records records = *given;
    struct dali_machine machine;
    uint8_t status = dali_records_add(&records, addition);
    int reserved = given->reserved.count;
    int enrolled = given->enrolled.count;

    check(status != DALI_NOT_DUE && status != DALI_NO_MACHINE && status <= DALI_NOT_RESERVED,
          "the status of an addition");
    check((dali_machine_new(&machine, given) == DALI_OK) == (status != DALI_NO_RECORDS),
          "what are records");
    if (status != DALI_OK) {
        check(memcmp(&records, given, sizeof records) == 0, "a refused addition changes");
        return;
    }
    switch ((enum dali_record_kind)addition->kind) {
    case DALI_RESERVE:
        check_last(&records.reserved, ++reserved, &addition->pair);
        break;
    case DALI_ENROL:
        check_last(&records.enrolled, ++enrolled, &addition->pair);
        break;
    case DALI_RELEASE:
        reserved--;
        break;
    }
    check(records.reserved.count == reserved && records.enrolled.count == enrolled,
          "how many records there are after an addition");
    check_new(&records, DALI_OK);
}

/* Machines in the midst of a commissioning on a bus with troubles, the first one from a start, the later ones from a
 * survey. Every one of them was there. */
static void collect(struct dali_machine *machines, uint64_t seed)
{
    struct dali_records records;
    struct dali_machine machine;
    struct dali_order order = {DALI_NOTHING_ORDERED, 0, 0, 0, 0, 0, {0, {0, {0, 0, 0}}}, 0};
    struct dali_order before;
    struct bus bus;
    struct told told = {DALI_START, 0};
    int every = 40;
    int steps = 0;

    bus_new(&bus, seed, 30);
    bus.troubles = (struct troubles){3000, 3000, 3000, 3000, 3000, 300};
    dali_records_new(&records, 4, 40);
    dali_machine_new(&machine, &records);
    while (steps < MACHINES * every) {
        if (steps % every == 0)
            machines[steps / every] = machine;
        steps++;
        before = order;
        if (dali_machine_step(&machine, told.input, told.byte, &order) != DALI_OK) {
            check(0, "a step of a commissioning");
            return;
        }
        check(is_order(&order), "the codes of an order");
        check(before.kind != DALI_COMMIT || order.kind == DALI_COMMIT
                  || (order.kind == DALI_PUT && order.priority == DALI_FIRST_PRIORITY),
              "what follows a commit");
        check(order.half == half_after(&before, &told, &order), "which half of a pair a frame is");
        switch ((enum dali_order_kind)order.kind) {
        case DALI_PUT:
            told = bus_send(&bus, order.address_byte, order.opcode_byte);
            break;
        case DALI_COMMIT:
            told.input = DALI_COMMITTED;
            break;
        case DALI_DONE:
        case DALI_HALT:
        case DALI_NOTHING_ORDERED:
            dali_machine_records(&machine, &records);
            dali_machine_new(&machine, &records);
            told.input = DALI_SURVEY;
            break;
        }
    }
}

static void change(void *thing, size_t size, uint64_t *chance)
{
    uint8_t *bytes = thing;
    uint32_t how = chance_below(chance, 16);

    if (how == 0) {
        for (size_t at = 0; at < size; at++)
            bytes[at] = (uint8_t)chance_next(chance);
    } else if (how > 1) {
        bytes[chance_below(chance, (uint32_t)size)] = (uint8_t)chance_next(chance);
    }
}

/* A record that often has an address or a number of these records. */
static struct dali_record some_record(const struct dali_records *records, uint64_t *chance)
{
    struct dali_record record = record_of((uint8_t)chance_below(chance, 5), 0, 0);

    record.pair = records->reserved.pairs[chance_below(chance, DALI_ADDRESSES)];
    if (chance_below(chance, 2) == 0)
        record.pair.short_address = (uint8_t)chance_below(chance, DALI_ADDRESSES + 2);
    if (chance_below(chance, 2) == 0)
        record.pair.random_address = records->enrolled.pairs[0].random_address;
    else if (chance_below(chance, 2) == 0)
        record.pair.random_address.low = (uint8_t)chance_next(chance);
    return record;
}

int main(int count, char **words)
{
    static struct dali_machine machines[MACHINES];
    unsigned long rounds = count > 1 ? strtoul(words[1], NULL, 10) : ROUNDS;
    uint64_t chance = count > 2 ? strtoul(words[2], NULL, 10) : 1;

    check_layouts();
    reach_statuses();
    reach_passes();
    reach_stops();
    reach_pins(rounds, chance);
    reach_port();
    collect(machines, chance);
    for (unsigned long round = 0; round < rounds; round++) {
        struct dali_machine machine = machines[chance_below(&chance, MACHINES)];
        struct dali_records records = machine.records;
        struct dali_record addition = some_record(&records, &chance);
        struct dali_window window = some_window(&chance);
        uint8_t input = (uint8_t)chance_below(&chance, DALI_SURVEY + 3);

        try_window(&window, (uint8_t)(chance_below(&chance, 33) / 16), (uint32_t)chance_next(&chance) >> round % 32);
        change(&machine, sizeof machine, &chance);
        change(&records, sizeof records, &chance);
        try_machine(&machine, input, (uint8_t)chance_next(&chance));
        try_records(&records, &addition);
        try_port(&chance);
    }
    printf("%lu right, %lu wrong\n", right, wrong);
    return wrong > 0;
}
