/* Every call of the library on whichever processor, so that two processors can be compared: additions to records, whole
 * commissionings on a bus with troubles, each by several lives of controllers, and what is heard of levels.
 *
 * After each call each byte of every struct that a call may write goes into a sum, with the status of the call. The sum
 * is written after each part, so that the first part that differs can be found; and at last how much there was, and
 * what the machines did. */
#include "chance.h"
#include "dali_c.h"
#include "gear.h"
#include "levels.h"
#include "support.h"

#include <string.h>

/* More than a life takes that is not killed. */
#define MOST_STEPS UINT32_C(40000)
/* And that one takes that is ended early. */
#define MOST_STOPPING UINT32_C(4000)
#define MOST_LIVES 6
#define MOST_CONTROLLERS 2
/* Each of so many steps is followed by the calls that only read, and by some on structs with a changed byte. */
#define READ_EACH 8
#define ADDITIONS 200
/* What a struct has before its records. */
#define STATE_BYTES (sizeof(struct dali_machine) - sizeof(struct dali_records))

/* Every struct that a call may write. All are bytes, so there is no gap. */
static union {
    struct {
        struct dali_machine machine, beside;
        struct dali_records kept[MOST_CONTROLLERS], read;
        struct dali_table table;
        struct dali_order order, other;
        struct dali_receiver receiver;
        struct dali_told told;
        struct dali_window window;
        struct dali_heard heard;
        struct dali_levels levels;
        struct dali_passes passes;
        struct dali_progress progress;
        uint8_t due, next;
        struct dali_event event;
    } is;
    uint32_t words[900];
} all;

static struct dali_port port;
static struct bus bus;
static uint64_t chance;
static uint32_t sum = UINT32_C(0x811C9DC5);
static uint32_t calls, frames, lives, stopped, commits[DALI_RELEASE + 1];
/* Of each status, purpose of a transaction, end, fault, thing to be done next and word of a port whether it came: a bit each. */
static uint32_t statuses, purposes, ends, faults, nexts, words_told;

static void mix(uint32_t word)
{
    sum = ((sum << 5 | sum >> 27) ^ word) * UINT32_C(0x9E3779B1);
}

/* A call answered this status. */
static uint8_t called(uint8_t status)
{
    calls++;
    statuses |= UINT32_C(1) << status;
    mix(status);
    for (uint32_t at = 0; at < (sizeof all.is + 3) / 4; at++)
        mix(all.words[at]);
    return status;
}

static void must(int is_so, const char *what)
{
    if (!is_so) {
        say("wrong: ");
        say(what);
        say("\n");
        end(0);
    }
}

static int is_same(const void *one, const void *other, size_t size)
{
    return memcmp(one, other, size) == 0;
}

static void tell(const char *what, uint32_t number)
{
    say(what);
    say_number(number);
    say("\n");
}

static uint8_t some_byte(void)
{
    return (uint8_t)chance_next(&chance);
}

static void change_byte(void *thing, uint32_t size)
{
    uint32_t at = chance_below(&chance, size), mask = chance_below(&chance, 2) ? 0xFF : 3;

    ((uint8_t *)thing)[at] = some_byte() & (uint8_t)mask;
}

/* Records. */

static struct dali_record record_of(uint8_t kind, uint8_t address, uint8_t number)
{
    struct dali_record record = {kind, {address, {0, number, 0}}};

    return record;
}

static uint8_t add(struct dali_record record)
{
    return called(dali_records_add(&all.is.kept[0], &record));
}

/* A release takes a pair out of the midst of others. */
static void release_one(void)
{
    const struct dali_pairs *left = &all.is.kept[0].reserved;

    called(dali_records_new(&all.is.kept[0], 0, DALI_ADDRESSES - 1));
    for (uint8_t at = 0; at < 4; at++)
        must(add(record_of(DALI_RESERVE, at, at)) == DALI_OK, "a reservation is refused");
    must(add(record_of(DALI_ENROL, 0, 0)) == DALI_OK, "an enrolment is refused");
    must(add(record_of(DALI_RELEASE, 1, 1)) == DALI_OK, "a release is refused");
    must(left->count == 3, "a release leaves another number of pairs");
    for (uint8_t at = 0; at < 3; at++) {
        uint8_t was = at == 0 ? 0 : at + 1;

        must(left->pairs[at].short_address == was && left->pairs[at].random_address.middle == was,
             "a release takes another pair");
    }
}

/* A record, often one that fits. Few random addresses, so that some come again. */
static struct dali_record some_record(uint32_t limit)
{
    const struct dali_pairs *reserved = &all.is.kept[0].reserved;
    uint32_t kind = 1 + chance_below(&chance, 3), address = chance_below(&chance, limit);
    uint32_t number = chance_below(&chance, 2 * limit);
    struct dali_record record = record_of((uint8_t)kind, (uint8_t)address, (uint8_t)number);

    if (record.kind == DALI_RELEASE && reserved->count > 0 && reserved->count <= DALI_ADDRESSES)
        record.pair = reserved->pairs[chance_below(&chance, reserved->count)];
    if (chance_below(&chance, 16) == 0)
        change_byte(&record, sizeof record);
    if (chance_below(&chance, 64) == 0)
        memset(&record.pair.random_address, 0xFF, sizeof record.pair.random_address);
    return record;
}

static void add_records(void)
{
    uint32_t limit = 2 + chance_below(&chance, 63), first = chance_below(&chance, 8);

    called(dali_records_new(&all.is.kept[0], (uint8_t)first, (uint8_t)(limit + chance_below(&chance, 4))));
    for (int times = 0; times < ADDITIONS; times++) {
        add(some_record(limit));
        if (times % READ_EACH != 0)
            continue;
        if (called(dali_machine_new(&all.is.machine, &all.is.kept[0])) == DALI_OK) {
            must(called(dali_machine_records(&all.is.machine, &all.is.read)) == DALI_OK, "no records of a machine");
            must(is_same(&all.is.read, &all.is.kept[0], sizeof all.is.read), "a new machine has other records");
        }
        all.is.read = all.is.kept[0];
        change_byte(&all.is.read, sizeof all.is.read);
        called(dali_machine_new(&all.is.beside, &all.is.read));
    }
}

/* A controller on a bus. */

/* The calls on a struct beside the machine: the same, or with another byte. */
static void read_beside(void)
{
    uint8_t status = called(dali_machine_check(&all.is.beside));

    called(dali_machine_due(&all.is.beside, &all.is.due));
    must(called(dali_machine_last(&all.is.beside, &all.is.other)) == status, "the last order is read otherwise");
    must(called(dali_machine_records(&all.is.beside, &all.is.read)) == status, "records are read otherwise");
    must(called(dali_machine_table(&all.is.beside, &all.is.table)) == status, "a table is read otherwise");
    must(called(dali_machine_progress(&all.is.beside, &all.is.progress)) == status, "progress is read otherwise");
}

static void step_beside(void)
{
    uint8_t input = (uint8_t)chance_below(&chance, DALI_SURVEY + 3);

    if (chance_below(&chance, 2))
        called(dali_machine_step(&all.is.beside, input, some_byte(), &all.is.other));
    else
        called(dali_machine_stop(&all.is.beside, input, some_byte(), &all.is.other));
}

static void try_beside(void)
{
    all.is.beside = all.is.machine;
    read_beside();
    must(is_same(&all.is.other, &all.is.order, sizeof all.is.other), "the last order is another");
    step_beside();
    all.is.beside = all.is.machine;
    change_byte(&all.is.beside, chance_below(&chance, 4) ? STATE_BYTES : sizeof all.is.beside);
    read_beside();
    step_beside();
}

/* A step by dali_machine_step, and by dali_machine_go beside it. */
static void step(struct told told)
{
    uint8_t status;

    all.is.beside = all.is.machine;
    status = called(dali_machine_step(&all.is.machine, told.input, told.byte, &all.is.order));
    must(status == DALI_OK, "a step is refused");
    status = called(dali_machine_go(&all.is.beside, told.input, told.byte, &all.is.other));
    must(status == DALI_OK, "a step without a test is refused");
    must(is_same(&all.is.beside, &all.is.machine, sizeof all.is.beside), "a step without a test is another");
    must(is_same(&all.is.other, &all.is.order, sizeof all.is.other), "a step without a test orders something else");
    purposes |= UINT32_C(1) << all.is.machine.purpose;
}

/* What the controller is told of an order. */
static struct told follow(struct dali_records *kept, uint32_t failing)
{
    const struct dali_order *order = &all.is.order;

    if (order->kind == DALI_PUT) {
        frames++;
        return bus_send(&bus, order->address_byte, order->opcode_byte);
    }
    if (failing > 0 && chance_below(&chance, failing) == 0)
        return (struct told){DALI_COMMIT_FAILED, 0};
    must(called(dali_records_add(kept, &order->record)) == DALI_OK, "a record is refused");
    commits[order->record.kind]++;
    return (struct told){DALI_COMMITTED, 0};
}

/* A run is ended early. */
static void stop(struct dali_records *kept, struct told told)
{
    uint32_t count = 0;

    for (uint8_t kind = DALI_NOTHING_ORDERED; kind != DALI_DONE && kind != DALI_HALT; count++) {
        must(called(dali_machine_stop(&all.is.machine, told.input, told.byte, &all.is.order)) == DALI_OK, "a stop is refused");
        must(count < MOST_STOPPING, "a stop does not end");
        kind = all.is.order.kind;
        if (kind == DALI_PUT || kind == DALI_COMMIT)
            told = follow(kept, 0);
    }
    stopped++;
}

/* One life of a controller, which is killed after so many steps, or ended early. 1 where it has ended before. Of so many
 * records one is not kept, or none fails. */
static int live(struct dali_records *kept, uint8_t start, uint32_t steps, uint32_t failing)
{
    struct told told = {start, 0};
    uint8_t kind = DALI_NOTHING_ORDERED;

    must(called(dali_machine_new(&all.is.machine, kept)) == DALI_OK, "no machine");
    lives++;
    for (uint32_t count = 0; count < steps && kind != DALI_DONE && kind != DALI_HALT; count++) {
        step(told);
        kind = all.is.order.kind;
        if (count % READ_EACH == 0)
            try_beside();
        if (kind == DALI_PUT || kind == DALI_COMMIT)
            told = follow(kept, failing);
        mix(told.input << 8 | told.byte);
    }
    if (kind != DALI_DONE && kind != DALI_HALT && chance_below(&chance, 2))
        stop(kept, told);
    ends |= kind == DALI_DONE ? UINT32_C(1) << all.is.order.reason : 0;
    faults |= kind == DALI_HALT ? UINT32_C(1) << all.is.order.reason : 0;
    return kind == DALI_DONE || kind == DALI_HALT;
}

/* So it is promised of gear that were new, and that nobody else gave an address. */
static void check_gear(void)
{
    uint8_t is_held[UINT8_MAX + 1] = {0};

    for (uint32_t at = 0; at < bus.gear_count; at++) {
        uint8_t byte = bus.gear[at].short_byte;

        must(byte == GEAR_MASK || !is_held[byte], "two gear have one short address");
        is_held[byte] = 1;
    }
}

/* Gear that were used before: each has drawn, and of three two have a short address. */
static void use_gear(void)
{
    uint32_t used = chance_below(&chance, bus.gear_count + 1);

    for (uint32_t at = 0; at < used; at++) {
        bus.gear[at].random_address = (chance_below(&chance, 0xFFFF) << 8) + at;
        if (at % 3 != 0)
            bus.gear[at].short_byte = (uint8_t)(2 * (at * 5 % DALI_ADDRESSES) + 1);
    }
}

/* A gear is exchanged for one with the same short address, or loses it, or gets another one by hand: what the records
 * say is wrong from then on. */
static void exchange_gear(void)
{
    struct gear *gear = &bus.gear[chance_below(&chance, bus.gear_count)];
    uint32_t how = chance_below(&chance, 3);

    if (how == 0)
        gear->random_address = chance_below(&chance, GEAR_MASK24);
    else if (how == 1)
        gear->short_byte = GEAR_MASK;
    else
        gear->short_byte = (uint8_t)(2 * chance_below(&chance, DALI_ADDRESSES) + 1);
}

/* A site with one controller or two, each with a block and records of its own, which are cut off, and then are not. */
static void commission(uint32_t run)
{
    uint32_t controllers = 1 + run % MOST_CONTROLLERS, is_used = run % 3 == 1, most = chance_below(&chance, 20000);
    uint32_t limit = run % 4 == 3 ? 30000 : 2 * most, size = DALI_ADDRESSES / controllers;

    bus_new(&bus, chance_next(&chance), run % 5 == 0 ? BUS_MOST_GEAR : 1 + chance_below(&chance, BUS_MOST_GEAR));
    if (is_used)
        use_gear();
    bus.troubles = (struct troubles){most / 2, most / 2, limit, limit, most / 2, most / 20};
    for (uint32_t at = 0; at < controllers; at++) {
        uint32_t last = at * size + size / 2 + chance_below(&chance, size / 2);

        must(called(dali_records_new(&all.is.kept[at], (uint8_t)(at * size), (uint8_t)last)) == DALI_OK, "no records");
    }
    for (uint32_t life = 0; life < MOST_LIVES; life++) {
        uint8_t start = is_used || chance_below(&chance, 2) ? DALI_SURVEY : DALI_START;
        uint32_t steps = 1 + chance_below(&chance, life < 2 ? 400 : 4000);

        live(&all.is.kept[life % controllers], start, steps, run % 7 == 6 ? 20 : 0);
        if (!is_used)
            check_gear();
    }
    if (run % 6 == 5)
        exchange_gear();
    bus.troubles = (struct troubles){0, 0, run % 8 == 7 ? 500000 : 0, 0, 0, 0};
    for (uint32_t at = 0; at < controllers; at++)
        must(live(&all.is.kept[at], DALI_SURVEY, MOST_STEPS, 0) || run % 8 == 7, "a controller alone has not ended");
    if (!is_used && run % 6 != 5)
        check_gear();
}

/* The simulated gear are those of the example, which can be killed; here nothing is. */
void stop_on_bus(void)
{
}

/* The calls at the pins, with any level and time, and of structs with any byte. */
static void try_pins(void)
{
    called(dali_levels_new(&all.is.levels, some_byte(), some_byte()));
    called(dali_receiver_new(&all.is.receiver));
    called(dali_window_new(&all.is.window));
    for (int times = 0; times < 60; times++) {
        uint32_t is_near = chance_below(&chance, 4);
        uint32_t micros = is_near ? 417 * (1 + chance_below(&chance, 3)) : (uint32_t)chance_next(&chance);
        uint8_t is_low = (uint8_t)chance_below(&chance, times % 16 == 15 ? 3 : 2);

        called(dali_receiver_edge(&all.is.receiver, is_low, micros, &all.is.told));
        called(dali_window_edge(&all.is.window, is_low, micros));
        if (chance_below(&chance, 8) == 0) {
            called(dali_receiver_time(&all.is.receiver, micros, &all.is.told));
            called(dali_window_time(&all.is.window, micros, &all.is.heard));
        }
        if (chance_below(&chance, 20) == 0) {
            change_byte(&all.is.receiver, sizeof all.is.receiver);
            change_byte(&all.is.window, sizeof all.is.window);
        }
    }
}

/* The runs of a controller by any orders, most of which end a run that found all gear. */
static void try_passes(void)
{
    called(dali_passes_new(&all.is.passes));
    for (int times = 0; times < 40; times++) {
        uint32_t is_end = chance_below(&chance, 4);

        memset(&all.is.other, 0, sizeof all.is.other);
        all.is.other.kind = is_end ? DALI_DONE : (uint8_t)chance_below(&chance, DALI_HALT + 2);
        all.is.other.reason = is_end > 1 ? DALI_ALL_FOUND : (uint8_t)chance_below(&chance, DALI_GAVE_UP + 2);
        all.is.other.priority = (uint8_t)chance_below(&chance, 7);
        all.is.other.record.kind = (uint8_t)chance_below(&chance, DALI_RELEASE + 2);
        if (called(dali_passes_step(&all.is.passes, (uint8_t)chance_below(&chance, 10), &all.is.other, &all.is.next)) == DALI_OK)
            nexts |= UINT32_C(1) << all.is.next;
        if (chance_below(&chance, 20) == 0)
            change_byte(&all.is.passes, sizeof all.is.passes);
    }
}

/* A port may have gaps, so what is compared is what its calls answer, and tell. */
static void port_called(uint8_t status)
{
    calls++;
    mix(status);
    mix(all.is.event.at);
    mix((uint32_t)all.is.event.is_low << 24 | (uint32_t)all.is.event.next << 16 | (uint32_t)all.is.event.input << 8 | all.is.event.byte);
    mix(all.is.event.read.kind);
    for (int at = 0; at < 3; at++)
        mix(all.is.event.read.bytes[at]);
    for (int at = 0; at < 4; at++)
        mix(all.is.event.read.lasted[at]);
    words_told |= UINT32_C(1) << (all.is.event.input & 31);
}

static void send_by_port(uint32_t now)
{
    struct dali_order order = {DALI_PUT, DALI_FIRST_PRIORITY, some_byte(), some_byte(), some_byte() & 1, DALI_WHOLE, {0, {0, {0, 0, 0}}}, 0};

    if (chance_below(&chance, 8) == 0)
        change_byte(&order, sizeof order);
    port_called(dali_port_send(&port, &order, chance_below(&chance, 1300), now, &all.is.event));
}

/* The edges of a backward frame that begins at this time, often with wrong bit times, and when it is over. */
static uint32_t answer_port(uint32_t from)
{
    uint32_t number = UINT32_C(0x100) | some_byte(), micros = chance_below(&chance, 4) ? 417 : 560;
    uint8_t was_low = 0;

    for (uint32_t half = 0; half <= 18; half++) {
        uint8_t is_low = half < 18 && (number >> (8 - half / 2) & 1) != half % 2;

        if (is_low != was_low)
            port_called(dali_port_edge(&port, is_low, from + micros * half, &all.is.event));
        was_low = is_low;
    }
    return from + micros * 18;
}

/* A port on a bus that follows it 15 us later, with edges of others, edges that are lost, and frames to send. */
static void try_port(void)
{
    uint32_t now = (uint32_t)chance_next(&chance);

    memset(&all.is.event, 0, sizeof all.is.event);
    port_called(dali_port_new(&port, (uint8_t)chance_below(&chance, 2), now, &all.is.event));
    for (int times = 0; times < 400; times++) {
        uint8_t was_low = all.is.event.is_low;
        uint32_t what = chance_below(&chance, 256), rest = all.is.event.at - now;

        if (rest > 9000 && rest < 20000 && chance_below(&chance, 3) == 0) {
            now = answer_port(now + 5000);
            continue;
        }
        now = what < 236 ? all.is.event.at : now + chance_below(&chance, 1000);
        if (what < 236)
            port_called(dali_port_timer(&port, now, &all.is.event));
        else if (what < 238)
            port_called(dali_port_edge(&port, (uint8_t)chance_below(&chance, 2), now, &all.is.event));
        else if (what < 255)
            send_by_port(now);
        else
            port_called(dali_port_lost(&port, (uint8_t)chance_below(&chance, 3), now, &all.is.event));
        if (all.is.event.is_low != was_low) {
            now += 15;
            port_called(dali_port_edge(&port, all.is.event.is_low, now, &all.is.event));
        }
        if (chance_below(&chance, 200) == 0)
            change_byte(&port, sizeof port);
    }
}

static void try_levels(void)
{
    struct levels_seen seen;
    const char *is_wrong = levels_try(SEED, LEVELS, &seen);

    must(!is_wrong, is_wrong);
    mix(seen.sum);
    tell("levels", seen.bytes);
    for (uint32_t times = 0; times < LEVELS; times++) {
        try_pins();
        try_passes();
        if (times % 20 == 0)
            try_port();
    }
    tell("pins", sum);
}

int main(void)
{
    chance = SEED;
    must(dali_c_version() == DALI_C_VERSION, "another version");
    must(sizeof all.is <= sizeof all.words, "the structs are larger");
    release_one();
    for (uint32_t run = 0; run < COMMISSIONINGS; run++)
        add_records();
    tell("records", sum);
    try_levels();
    for (uint32_t run = 0; run < COMMISSIONINGS; run++) {
        commission(run);
        tell("site", sum);
    }
    tell("calls", calls);
    tell("frames", frames);
    tell("lives", lives);
    tell("stopped", stopped);
    tell("reservations", commits[DALI_RESERVE]);
    tell("enrolments", commits[DALI_ENROL]);
    tell("releases", commits[DALI_RELEASE]);
    tell("statuses", statuses);
    tell("purposes", purposes);
    tell("ends", ends);
    tell("faults", faults);
    tell("nexts", nexts);
    tell("words", words_told);
#ifdef REACHED
    {
        extern const uint8_t reached[REACHED];

        for (uint32_t at = 0; at < REACHED; at++)
            if (!reached[at])
                tell("missed", at);
    }
#endif
    return 1;
}
