/*
 * The machine of an application controller, which gives short addresses to DALI control gear
 * (IEC 62386-102:2014), as a static library.
 *
 * A machine is a plain struct that you own. It holds no pointer, and no call takes memory, keeps
 * anything between two calls, or prints; so a machine may be copied, laid down and handed over as
 * bytes, and two threads may call at the same time for two machines. Give no call two pointers to
 * the same thing, and none a null pointer.
 *
 * Every call but dali_machine_go takes any bytes: it answers DALI_OK, or says by another status why
 * it did nothing. What is handed to it to be written is then as it was.
 *
 * docs/VENDOR.md says how to drive a machine on a real bus and with a real store.
 */
#ifndef DALI_C_H
#define DALI_C_H

#include <stdint.h>

#ifdef __cplusplus
extern "C" {
#endif

/* The version of the library, whose struct and calls these are. */
#define DALI_VERSION "0.3.0"
/* The version of the structs and calls: it counts up with each change of one of them. Compare it with dali_c_version()
 * once, before the first call. */
#define DALI_C_VERSION 106

/* How many short addresses there are, and the most records of a kind. */
#define DALI_ADDRESSES 64
/* The most frames of a running transaction. */
#define DALI_FRAMES 8
/* The half bits of a forward frame with its stop condition. */
#define DALI_HALVES 40
/* The priority of a transaction's first frame, and of its later ones: 1 is sent first, 5 last. */
#define DALI_FIRST_PRIORITY 3
#define DALI_LATER_PRIORITY 1

/* What every call answers. */
enum dali_status {
    DALI_OK = 0,
    /* The machine waits for something else (dali_machine_due), or for nothing. */
    DALI_NOT_DUE = 1,
    /* The struct is no machine's: its bytes are none that a call of this version left there. */
    DALI_NO_MACHINE = 2,
    /* An argument is out of its range, or the addition is no record. */
    DALI_BAD_ARGUMENT = 3,
    /* The struct is no controller's records. */
    DALI_NO_RECORDS = 4,
    /* The random address is FFFFFF, or the short address that is reserved or released is outside the block. */
    DALI_DOES_NOT_FIT = 5,
    /* A record of the same kind has the short address. */
    DALI_ADDRESS_TAKEN = 6,
    /* A record of the same kind has the random address, and none the short address. */
    DALI_RANDOM_TAKEN = 7,
    /* What is released is not reserved so. */
    DALI_NOT_RESERVED = 8,
    /* The struct is no machine of this version: another build of the library left it there, or none. */
    DALI_OTHER_VERSION = 9,
    /* The time is before that of the last call. */
    DALI_BACKWARDS = 10,
    /* The last frame has not ended. */
    DALI_BUSY = 11
};

/* What a machine is told. */
enum dali_input {
    /* To start, if all gear without short address are to draw random addresses at once; then they are searched. */
    DALI_START = 0,
    /* The frame was sent whole, and within the time of a backward frame nothing was heard; */
    DALI_HEARD_SILENCE = 1,
    /* one backward frame, its byte in `byte`; */
    DALI_HEARD_BYTE = 2,
    /* or something that is no backward frame. */
    DALI_HEARD_DAMAGED = 3,
    /* The frame was destroyed, or may have been. */
    DALI_DESTROYED = 4,
    /* The bus was lost before the frame was sent. */
    DALI_LAPSED = 5,
    /* The record is kept. */
    DALI_COMMITTED = 6,
    /* The record cannot be kept. */
    DALI_COMMIT_FAILED = 7,
    /* To start, in each run. The machine asks under each short
     * address that is reserved, or that its table does not name, whether gear are there: three times if none answers.
     * Gear that tells a random address is enrolled, whether or not the short address is of the block. Then the gear
     * without short address are searched under the random addresses that they have, and get the address that is
     * reserved for them, or a free one under which no gear was heard. At last, if an address like that is free, those
     * that are left draw random addresses and are searched. The questions cost some six seconds of the bus; the searches of
     * many new gear take less than after DALI_START. */
    DALI_SURVEY = 8
};

/* What a machine orders. */
enum dali_order_kind {
    /* No order yet: what dali_machine_last gives of a machine that has not started. */
    DALI_NOTHING_ORDERED = 0,
    /* Send a forward frame at a priority. */
    DALI_PUT = 1,
    /* Keep a record, safe from a loss of power. */
    DALI_COMMIT = 2,
    /* The commissioning is over, for a reason of enum dali_end. */
    DALI_DONE = 3,
    /* The machine has stopped, for a reason of enum dali_fault. */
    DALI_HALT = 4
};

/* Which frame of a send-twice command a frame is. */
enum dali_half {
    /* It is sent once. */
    DALI_WHOLE = 0,
    /* The first of two equal frames. */
    DALI_FIRST_HALF = 1,
    /* The second, which ends at most 100 ms after the first one began. */
    DALI_SECOND_HALF = 2
};

/* Why a commissioning is over. */
enum dali_end {
    /* The last question, whether any gear is left without short address, heard silence. It does not mean that all gear
     * have one: after an answer that was lost, or after the TERMINATE of another controller, gear may be left without.
     * docs/INSTALLER.md says what to do. */
    DALI_ALL_FOUND = 1,
    /* The block has no free short address. */
    DALI_BLOCK_FULL = 2,
    /* Eight transactions in a row were lost; or sixteen searches of a start, or eighty of a survey, led to no gear; or
     * dali_machine_stop ended the run. */
    DALI_GAVE_UP = 3
};

/* Why a machine has stopped. */
enum dali_fault {
    /* A gear names itself otherwise than the records do. */
    DALI_CONFLICT = 1,
    /* A record could not be kept. */
    DALI_STORE = 2
};

/* What a machine waits for. */
enum dali_due {
    /* DALI_START or DALI_SURVEY. */
    DALI_DUE_START = 0,
    /* What became of the frame that it ordered. */
    DALI_DUE_BUS = 1,
    /* What became of the record that it ordered. */
    DALI_DUE_STORE = 2,
    DALI_DUE_NOTHING = 3
};

/* What a record says of a short address and a random address. */
enum dali_record_kind {
    /* The short address is kept free for the gear with the random address. */
    DALI_RESERVE = 1,
    /* The gear with the random address has the short address. */
    DALI_ENROL = 2,
    /* A reservation is given back. */
    DALI_RELEASE = 3
};

/* What a machine does, by dali_machine_progress. */
enum dali_phase {
    /* It has not started. */
    DALI_NOT_STARTED = 0,
    /* It asks gear under a short address for their random address. */
    DALI_ASKING = 1,
    /* It lets gear without short address draw random addresses, or searches them. */
    DALI_SEARCHING = 2,
    /* It visits a gear that was found, or for which a short address is reserved: asks it for its short address, and
     * programs it if it has none. */
    DALI_PROGRAMMING = 3,
    /* It ends the initialisation of all gear. */
    DALI_ENDING = 4,
    /* It is done, or has halted. */
    DALI_OVER = 5
};

/* What is to be done after a step, by dali_passes_step. */
enum dali_next {
    /* What the machine has ordered. */
    DALI_NEXT_ORDER = 0,
    /* Another run: a new machine with the records of this one, by DALI_SURVEY. */
    DALI_NEXT_RUN = 1,
    /* Nothing. Three runs in a row have found all gear and committed nothing, and a gear has answered in the last one. */
    DALI_NEXT_READY = 2,
    /* The same, but none has answered: the bus may have failed. Ask the gear of the table, until one answers. */
    DALI_NEXT_ASK = 3,
    /* Nothing. The run ended otherwise: the order says why. */
    DALI_NEXT_ENDED = 4
};

/* What a receiver of edges tells, and a port. */
enum dali_frame_kind {
    /* No frame has ended. */
    DALI_NO_FRAME = 0,
    /* 16 bits, a forward frame: its address byte and its opcode byte. */
    DALI_FORWARD_FRAME = 1,
    /* 8 bits, a backward frame: its byte. */
    DALI_BACKWARD_FRAME = 2,
    /* 24 bits, a forward frame for other devices: its three bytes. */
    DALI_DEVICE_FRAME = 3,
    /* Anything else: wrong bit times, a bit without a change in its middle, a wrong number of bits. */
    DALI_DAMAGED_FRAME = 4,
    /* Of a port alone: the bus has been low for 500 ms, so it has no power. It is told once. */
    DALI_NO_POWER = 5
};

/* A random address of 24 bits, as its three bytes. */
struct dali_random {
    uint8_t high;
    uint8_t middle;
    uint8_t low;
};

/* A short address, 0 to 63, and a random address. */
struct dali_pair {
    uint8_t short_address;
    struct dali_random random_address;
};

/* One record. Its kind is of enum dali_record_kind. */
struct dali_record {
    uint8_t kind;
    struct dali_pair pair;
};

/* A list of pairs, oldest first: the first `count` are those that there are. */
struct dali_pairs {
    uint8_t count;
    struct dali_pair pairs[DALI_ADDRESSES];
};

/* The records of one controller: the block of short addresses that it may give, both ends within it, and the pairs that
 * are reserved and that are enrolled. Make one with dali_records_new, and add to it with dali_records_add. */
struct dali_records {
    uint8_t first;
    uint8_t last;
    struct dali_pairs reserved;
    struct dali_pairs enrolled;
};

/* One order. Its kind is of enum dali_order_kind. What the kind does not name is 0. */
struct dali_order {
    uint8_t kind;
    /* DALI_PUT: the frame's priority, and its two bytes in the order in which they are sent. */
    uint8_t priority;
    uint8_t address_byte;
    uint8_t opcode_byte;
    /* DALI_PUT: 1 if a backward frame is awaited, else 0. */
    uint8_t asks;
    /* DALI_PUT: of enum dali_half. */
    uint8_t half;
    /* DALI_COMMIT: the record. */
    struct dali_record record;
    /* DALI_DONE and DALI_HALT: of enum dali_end, or of enum dali_fault. */
    uint8_t reason;
};

/* Of a machine: one frame of the running transaction, and what was heard after it. */
struct dali_entry {
    uint8_t address_byte;
    uint8_t opcode_byte;
    uint8_t heard;
    uint8_t byte;
};

/* Of a machine: the last gear that was found, and how. */
struct dali_finding {
    uint8_t kind;
    struct dali_pair pair;
};

/* Of a machine: how far the search is that a survey goes up with, from one random address to the next. */
struct dali_ascent {
    struct dali_random low;
    struct dali_random high;
    struct dali_random top;
    uint8_t steps;
    uint8_t is_anew;
    uint8_t silent;
    uint8_t found;
};

/* Of a machine: what a survey has counted, and whose visits failed. */
struct dali_tally {
    uint8_t draws;
    uint8_t rolls;
    uint8_t calls;
    uint8_t askings;
    uint8_t is_missed;
    uint8_t has_failed;
    struct dali_random failed;
    uint8_t passed_count;
    struct dali_random passed[8];
};

/* A machine between two calls. Make one with dali_machine_new; its fields are the library's alone, and only so many
 * bytes to you. */
struct dali_machine {
    uint8_t version;
    uint8_t opened;
    uint8_t tries;
    uint8_t silent;
    uint8_t from;
    uint8_t purpose;
    uint8_t detail;
    uint8_t answers;
    struct dali_random number;
    struct dali_random least;
    struct dali_random probe;
    struct dali_ascent ascent;
    struct dali_finding finding;
    struct dali_order last;
    uint8_t way;
    uint8_t asked;
    uint8_t heard[DALI_ADDRESSES / 8];
    struct dali_tally tally;
    uint8_t entry_count;
    struct dali_entry entries[DALI_FRAMES];
    struct dali_records records;
};

/* The enrolment table: which gear has which short address, in the order in which they were enrolled. */
struct dali_table {
    uint8_t count;
    struct dali_pair gear[DALI_ADDRESSES];
};

/* How far a machine is. Its phase is of enum dali_phase. */
struct dali_progress {
    uint8_t phase;
    /* The one that is asked, or that is reserved for the gear that is visited; DALI_ADDRESSES if there is none. */
    uint8_t short_address;
    /* How many gear are enrolled, with those of earlier runs. */
    uint8_t gear;
};

/* The runs of a controller, one machine after the other. Make one with dali_passes_new: how many runs up to the last have
 * found all gear and committed nothing, and whether this one has ordered a commit and has heard a byte. */
struct dali_passes {
    uint8_t quiet;
    uint8_t has_committed;
    uint8_t has_heard;
};

/* The levels of a forward frame with its stop condition, half bit by half bit, each 416.7 microseconds long: 1 while
 * the bus is low, 0 while it is high. */
struct dali_levels {
    uint8_t is_low[DALI_HALVES];
};

/* Reads the edges of the bus. Make one with dali_receiver_new; its fields are the library's alone, and only so many
 * bytes to you. */
struct dali_receiver {
    uint8_t reading;
    uint8_t is_low;
    uint8_t bits[4];
    uint8_t lasted[4];
};

/* What a receiver tells. Its kind is of enum dali_frame_kind. What the kind does not name is 0. */
struct dali_told {
    uint8_t kind;
    /* In the order in which they were sent. */
    uint8_t bytes[3];
    /* How many microseconds the frame took from its first edge to its last one: four bytes, the least first. */
    uint8_t lasted[4];
};

/* What is heard after a forward frame. Make one with dali_window_new; its fields are the library's alone, and only so
 * many bytes to you. */
struct dali_window {
    struct dali_receiver receiver;
    uint8_t elapsed[4];
    uint8_t heard;
    uint8_t byte;
};

/* What a window tells. Before it is over all is 0. */
struct dali_heard {
    uint8_t is_over;
    /* What dali_machine_step is told: DALI_HEARD_SILENCE, DALI_HEARD_BYTE with its byte, or DALI_HEARD_DAMAGED. */
    uint8_t input;
    uint8_t byte;
};

/* A port between the pins and a machine. Make one with dali_port_new; its fields are the library's alone. */
struct dali_port {
    uint64_t called;
    uint64_t edge;
    uint64_t since;
    uint64_t agreed;
    uint64_t driven;
    uint64_t first;
    uint64_t randomise;
    uint64_t draws;
    uint32_t drawn;
    uint32_t bits;
    uint32_t lasted;
    uint32_t elapsed;
    uint8_t phase;
    uint8_t is_low;
    uint8_t is_powerless;
    uint8_t is_over;
    uint8_t at_half;
    uint8_t priority;
    uint8_t address_byte;
    uint8_t opcode_byte;
    uint8_t asks;
    uint8_t half;
    uint8_t has_first;
    uint8_t has_randomise;
    uint8_t has_draws;
    uint8_t reading;
    uint8_t was_low;
    uint8_t heard;
    uint8_t byte;
    uint8_t has_pulse;
};

/* What each call of a port tells. */
struct dali_event {
    /* When to call dali_port_timer, if no other call comes before: at most 18 minutes later. */
    uint32_t at;
    /* 1 if the bus is to be driven low from now on, and whether it is to be from `at` on, unless a frame begins then. */
    uint8_t is_low;
    uint8_t next;
    /* What dali_machine_step is told of the frame, DALI_HEARD_SILENCE to DALI_LAPSED with its byte; 0 if it has not ended. */
    uint8_t input;
    uint8_t byte;
    /* What was read of others, while no frame of the port is on the bus. */
    struct dali_told read;
};

/* DALI_C_VERSION of the library. */
uint8_t dali_c_version(void);

/* The records of a controller that has kept none, for a block of short addresses, from `first` to `last`. A block whose
 * first is above its last is empty.
 *
 * DALI_BAD_ARGUMENT: one of them is above 63. */
uint8_t dali_records_new(struct dali_records *records, uint8_t first, uint8_t last);

/* Adds a record that was kept, as a controller reads them from its store: all of them, oldest first.
 *
 * DALI_NO_RECORDS: `records` is no controller's records. DALI_BAD_ARGUMENT: `addition` is no record: its kind is none
 * of enum dali_record_kind, or its short address is above 63. DALI_DOES_NOT_FIT, DALI_ADDRESS_TAKEN, DALI_RANDOM_TAKEN,
 * DALI_NOT_RESERVED: it is none that a machine orders after these. A store whose records are refused is not the one
 * that was written. */
uint8_t dali_records_add(struct dali_records *records, const struct dali_record *addition);

/* A machine that has not started, with these records.
 *
 * DALI_NO_RECORDS: `records` is no controller's records. */
uint8_t dali_machine_new(struct dali_machine *machine, const struct dali_records *records);

/* Tells a machine what happened, and gives its next order. `input` is of enum dali_input; `byte` is read with
 * DALI_HEARD_BYTE alone.
 *
 * DALI_OTHER_VERSION, DALI_NO_MACHINE: `machine` is no machine's. DALI_BAD_ARGUMENT: `input` is none of enum
 * dali_input. DALI_NOT_DUE: the machine waits for something else. */
uint8_t dali_machine_step(struct dali_machine *machine, uint8_t input, uint8_t byte, struct dali_order *order);

/* Whether `machine` is a machine's. It reads the whole struct once. DALI_OTHER_VERSION, DALI_NO_MACHINE: it is none.
 *
 * dali_machine_step is dali_machine_check, and then dali_machine_go. */
uint8_t dali_machine_check(const struct dali_machine *machine);

/* The same as dali_machine_step, without the test of the struct: for firmware that has no time for it between two frames.
 *
 * THE ONE CALL WITH A CONDITION: `machine` is as a call of this library left it and answered DALI_OK, or dali_machine_check
 * answers DALI_OK of it. Of other bytes nothing is promised. */
uint8_t dali_machine_go(struct dali_machine *machine, uint8_t input, uint8_t byte, struct dali_order *order);

/* What a machine waits for, of enum dali_due. It reads nothing of the machine but the order that it gave last.
 * DALI_NO_MACHINE: that is no order. */
uint8_t dali_machine_due(const struct dali_machine *machine, uint8_t *due);

/* What a machine ordered last. DALI_OTHER_VERSION, DALI_NO_MACHINE: `machine` is no machine's. */
uint8_t dali_machine_last(const struct dali_machine *machine, struct dali_order *order);

/* The records of a machine: those that it began with, and each that it was told of as committed.
 * DALI_OTHER_VERSION, DALI_NO_MACHINE: `machine` is no machine's. */
uint8_t dali_machine_records(const struct dali_machine *machine, struct dali_records *records);

/* The enrolment table of a machine. DALI_OTHER_VERSION, DALI_NO_MACHINE: `machine` is no machine's. */
uint8_t dali_machine_table(const struct dali_machine *machine, struct dali_table *table);

/* How far a machine is. DALI_OTHER_VERSION, DALI_NO_MACHINE: `machine` is no machine's. */
uint8_t dali_machine_progress(const struct dali_machine *machine, struct dali_progress *progress);

/* TO END A RUN BEFORE ITS TIME. The same as dali_machine_step, but a transaction that would begin is left out: TERMINATE
 * is ordered in its place, and then DALI_DONE with DALI_GAVE_UP. A transaction that runs goes on, a record that was
 * ordered is waited for, and the gear of a reservation is visited. So call it in place of dali_machine_step until the
 * order is DALI_DONE or DALI_HALT; a run that ends by itself meanwhile has its own reason. A new machine with the records
 * goes on. */
uint8_t dali_machine_stop(struct dali_machine *machine, uint8_t input, uint8_t byte, struct dali_order *order);

/* WHEN A CONTROLLER IS READY. The runs of a controller, before the first one. */
uint8_t dali_passes_new(struct dali_passes *passes);

/* A machine was told `input`, and has ordered this: after each step. `next` is of enum dali_next.
 *
 * DALI_BAD_ARGUMENT: `passes` has told that no run is to follow, or was not made; or `order` is none. */
uint8_t dali_passes_step(struct dali_passes *passes, uint8_t input, const struct dali_order *order, uint8_t *next);

/* AT THE PINS, for a driver that sees the edges of the bus. A window tells what a machine is told; a receiver tells
 * each frame, also those of others. `is_low` is the level after an edge: 1 if the bus is low, 0 if it is high.
 * `micros` is how many microseconds have passed since the edge before, or until now since the last one. Hand each edge
 * over before a time that is later. docs/VENDOR.md says what else is the driver's. */

/* The levels of a forward frame. */
uint8_t dali_levels_new(struct dali_levels *levels, uint8_t address_byte, uint8_t opcode_byte);

/* A window, at the last edge of the own forward frame. Make one after each frame, also one with `asks` 0. */
uint8_t dali_window_new(struct dali_window *window);

/* An edge. `micros` of the first one are those since the last edge of the own forward frame. An edge to high before any
 * low and before 2400 us is an echo of that last edge, and changes nothing. A low that is no bit of an answer damages
 * what is heard, but for one that is shorter than 100 us.
 *
 * DALI_BAD_ARGUMENT: `window` is none, or `is_low` is neither 0 nor 1. */
uint8_t dali_window_edge(struct dali_window *window, uint8_t is_low, uint32_t micros);

/* Time has passed since the last edge, or since the window is new. Tells what was heard once no backward frame may
 * begin any more and the bus is at rest, or has not come to rest within 50 ms. Silence is told only of a bus that was
 * high all the time, but for at most one low that was shorter than 100 us.
 *
 * DALI_BAD_ARGUMENT: `window` is none, and no later call tells what was heard. Tell the machine DALI_HEARD_DAMAGED
 * after a question, else DALI_DESTROYED. */
uint8_t dali_window_time(struct dali_window *window, uint32_t micros, struct dali_heard *heard);

/* A receiver of a bus that has been high for the time of a stop condition. */
uint8_t dali_receiver_new(struct dali_receiver *receiver);

/* An edge. Tells the frame that had ended before it, if dali_receiver_time did not tell it.
 *
 * DALI_BAD_ARGUMENT: `receiver` is none, or `is_low` is neither 0 nor 1. */
uint8_t dali_receiver_edge(struct dali_receiver *receiver, uint8_t is_low, uint32_t micros, struct dali_told *told);

/* Time has passed since the last edge. Tells the frame that has ended by now, once.
 *
 * DALI_BAD_ARGUMENT: `receiver` is none. */
uint8_t dali_receiver_time(struct dali_receiver *receiver, uint32_t micros, struct dali_told *told);

/* A PORT does all at the pins: it waits for the bus, sends, compares, breaks off, listens, and reads the frames of others.
 * `now` is the time of a clock that counts microseconds in 32 bits, of an edge the time that was captured. Read the time,
 * hand over each edge that was captured up to it, and then that time. After each call drive what `event` says.
 *
 * Each call answers DALI_BAD_ARGUMENT if a level is neither 0 nor 1; DALI_BACKWARDS if `now` is before the time of the last
 * call. Any bytes are a port, so begin with dali_port_new. Call once in 35 minutes at least. */

/* A port at power-up, or if nothing is known of the bus but its level. */
uint8_t dali_port_new(struct dali_port *port, uint8_t is_low, uint32_t now, struct dali_event *event);

/* A frame to send, as a machine ordered it. It begins when the bus is at rest, `drawn` microseconds later than the least
 * time of its priority: draw it anew for each frame, from 0 to 1,200.
 *
 * DALI_BUSY: the last frame has not ended. DALI_BAD_ARGUMENT: `order` is no DALI_PUT; or its second half has not
 * DALI_LATER_PRIORITY; or `drawn` is too much. */
uint8_t dali_port_send(struct dali_port *port, const struct dali_order *order, uint32_t drawn, uint32_t now,
                       struct dali_event *event);

/* An edge. If the bus has that level already, an edge was lost. */
uint8_t dali_port_edge(struct dali_port *port, uint8_t is_low, uint32_t now, struct dali_event *event);

/* An edge may have been lost, as when the capture unit overran, or an edge is refused by DALI_BACKWARDS. */
uint8_t dali_port_lost(struct dali_port *port, uint8_t is_low, uint32_t now, struct dali_event *event);

/* The time `at`, or any other. */
uint8_t dali_port_timer(struct dali_port *port, uint32_t now, struct dali_event *event);

#ifdef __cplusplus
}
#endif

#endif
