/* Measures the calls of the library on a bare processor, ARMv6-M or another, as qemu simulates it: whole commissionings of 64
 * simulated gear, and in them of each call how many instructions it takes and how much of the stack.
 *
 * qemu lets a fixed time pass for each instruction (-icount shift=7: 128 ns), and the counter of the processor counts
 * down once in 40 ns, so that the difference of two counts gives the number of instructions exactly. A RISC-V processor
 * counts them itself (-icount shift=0). Each call runs on
 * a stack of its own, which is painted before the first call; how far it is changed is how much the calls took. */
#include "dali_c.h"
#include "gear.h"
#include "support.h"

#include <string.h>

#define SYSTICK_CONTROL (*(volatile uint32_t *)0xE000E010)
#define SYSTICK_RELOAD (*(volatile uint32_t *)0xE000E014)
#define SYSTICK_COUNT (*(volatile uint32_t *)0xE000E018)
/* On, without interrupts, by the clock of the processor, which is 25 MHz; that it passed 0. */
#define SYSTICK_ON 0x5
#define SYSTICK_PASSED 0x10000
#define SYSTICK_MOST UINT32_C(0xFFFFFF)

#define BANDS 4
#define STACK_WORDS (48 * 1024 / 4)
/* The words above the stack of a call, where its fifth argument is if it is not in a register. */
#define ABOVE 4
#define PAINT UINT32_C(0x5C5C5C5C)
/* The calls that do not drive a commissioning are made at each moment of so many. */
#define BESIDE 13

/* Where a thing stands in a word decides how fast it is copied, so all stand at the beginning of one, or none does. */
#define ALIGNED __attribute__((aligned(8)))
#ifdef OFF_A_WORD
#define PLACED
#else
#define PLACED ALIGNED
#endif

/* One commissioning, and what the calls beside work upon. */
struct course {
    struct bus bus;
    struct told told;
    unsigned enrolled;
    unsigned moment;
    /* A frame at the pins, its next edge, and the time before that. */
    uint32_t number;
    uint32_t is_low;
    uint32_t micros;
    uint8_t off_a_word;
    struct dali_machine machine PLACED;
    struct dali_order order PLACED;
    struct dali_machine other_machine PLACED;
    struct dali_order other_order PLACED;
    struct dali_records records PLACED;
    struct dali_record addition PLACED;
    struct dali_table table PLACED;
    struct dali_passes passes PLACED;
    struct dali_progress progress PLACED;
    struct dali_levels levels PLACED;
    struct dali_receiver receiver PLACED;
    struct dali_told frame PLACED;
    struct dali_window window PLACED;
    struct dali_heard heard PLACED;
    struct dali_port port ALIGNED;
    struct dali_event event ALIGNED;
    uint32_t now;
    uint8_t due, next;
};

/* What a call may take: the registers of its first four arguments, and a fifth one. */
struct arguments {
    uintptr_t at[5];
};

/* What was counted of a call while so many gear were enrolled. */
struct figure {
    uint32_t calls;
    uint32_t most;
    uint64_t sum;
};

struct call {
    const char *name;
    void (*entry)(void);
    /* Readies one call at this moment. 0 where there is none to make. */
    int (*ready)(struct course *course, struct arguments *arguments);
    struct figure figures[BANDS];
};

static uint32_t stacks[26][STACK_WORDS] ALIGNED;
static struct course course;
/* Of the two calls that take a step, those that ordered a later frame of a transaction, for which the bus waits. */
static struct figure later[2][BANDS];

/* Each measured call: how it is readied. The first one drives the commissioning, and the second one
 * takes the same step with a copy. */

#define AT(thing) ((uintptr_t)&(thing))

static int ready_step(struct course *it, struct arguments *arguments)
{
    *arguments = (struct arguments){{AT(it->machine), it->told.input, it->told.byte, AT(it->order)}};
    return 1;
}

/* The same step, of a copy. */
static int ready_go(struct course *it, struct arguments *arguments)
{
    it->other_machine = it->machine;
    *arguments = (struct arguments){{AT(it->other_machine), it->told.input, it->told.byte, AT(it->other_order)}};
    return 1;
}

static int ready_check(struct course *it, struct arguments *arguments)
{
    *arguments = (struct arguments){{AT(it->machine)}};
    return 1;
}

static int ready_due(struct course *it, struct arguments *arguments)
{
    *arguments = (struct arguments){{AT(it->machine), AT(it->due)}};
    return 1;
}

static int ready_last(struct course *it, struct arguments *arguments)
{
    *arguments = (struct arguments){{AT(it->machine), AT(it->other_order)}};
    return 1;
}

static int ready_records(struct course *it, struct arguments *arguments)
{
    *arguments = (struct arguments){{AT(it->machine), AT(it->records)}};
    return 1;
}

static int ready_table(struct course *it, struct arguments *arguments)
{
    *arguments = (struct arguments){{AT(it->machine), AT(it->table)}};
    return 1;
}

/* Once a run has ended, nothing is left to stop. */
static int ready_stop(struct course *it, struct arguments *arguments)
{
    ready_go(it, arguments);
    return it->order.kind == DALI_PUT || it->order.kind == DALI_COMMIT;
}

static int ready_progress(struct course *it, struct arguments *arguments)
{
    *arguments = (struct arguments){{AT(it->machine), AT(it->progress)}};
    return 1;
}

static int ready_machine_new(struct course *it, struct arguments *arguments)
{
    dali_machine_records(&it->machine, &it->records);
    *arguments = (struct arguments){{AT(it->other_machine), AT(it->records)}};
    return 1;
}

/* The records without the enrolment that is added. */
static int ready_records_add(struct course *it, struct arguments *arguments)
{
    dali_machine_records(&it->machine, &it->records);
    if (it->records.enrolled.count == 0)
        return 0;
    it->records.enrolled.count--;
    it->addition = (struct dali_record){DALI_ENROL, it->records.enrolled.pairs[it->records.enrolled.count]};
    *arguments = (struct arguments){{AT(it->records), AT(it->addition)}};
    return 1;
}

static int ready_records_new(struct course *it, struct arguments *arguments)
{
    *arguments = (struct arguments){{AT(it->records), 0, DALI_ADDRESSES - 1}};
    return 1;
}

static int ready_passes_new(struct course *it, struct arguments *arguments)
{
    *arguments = (struct arguments){{AT(it->passes)}};
    return 1;
}

static int ready_passes_step(struct course *it, struct arguments *arguments)
{
    dali_passes_new(&it->passes);
    *arguments = (struct arguments){{AT(it->passes), it->told.input, AT(it->order), AT(it->next)}};
    return it->order.kind != DALI_NOTHING_ORDERED;
}

/* The calls at the pins, which are measured by themselves. */

static int ready_levels_new(struct course *it, struct arguments *arguments)
{
    *arguments = (struct arguments){{AT(it->levels), it->number >> 8 & 0xFF, it->number & 0xFF}};
    return 1;
}

static int ready_window_new(struct course *it, struct arguments *arguments)
{
    *arguments = (struct arguments){{AT(it->window)}};
    return 1;
}

static int ready_window_edge(struct course *it, struct arguments *arguments)
{
    *arguments = (struct arguments){{AT(it->window), it->is_low, it->micros}};
    return 1;
}

static int ready_window_time(struct course *it, struct arguments *arguments)
{
    *arguments = (struct arguments){{AT(it->window), it->micros, AT(it->heard)}};
    return 1;
}

static int ready_receiver_new(struct course *it, struct arguments *arguments)
{
    *arguments = (struct arguments){{AT(it->receiver)}};
    return 1;
}

static int ready_receiver_edge(struct course *it, struct arguments *arguments)
{
    *arguments = (struct arguments){{AT(it->receiver), it->is_low, it->micros, AT(it->frame)}};
    return 1;
}

static int ready_receiver_time(struct course *it, struct arguments *arguments)
{
    *arguments = (struct arguments){{AT(it->receiver), it->micros, AT(it->frame)}};
    return 1;
}

static int ready_port_new(struct course *it, struct arguments *arguments)
{
    *arguments = (struct arguments){{AT(it->port), 0, it->now, AT(it->event)}};
    return 1;
}

static int ready_port_send(struct course *it, struct arguments *arguments)
{
    *arguments = (struct arguments){{AT(it->port), AT(it->other_order), it->number % 1201, it->now, AT(it->event)}};
    return 1;
}

static int ready_port_edge(struct course *it, struct arguments *arguments)
{
    *arguments = (struct arguments){{AT(it->port), it->is_low, it->now, AT(it->event)}};
    return 1;
}

static int ready_port_timer(struct course *it, struct arguments *arguments)
{
    *arguments = (struct arguments){{AT(it->port), it->now, AT(it->event)}};
    return 1;
}

#define CALL(name, ready) {#name, (void (*)(void))name, ready, {{0}}}

static struct call calls[] = {
    CALL(dali_machine_step, ready_step),
    CALL(dali_machine_go, ready_go),
    CALL(dali_machine_check, ready_check),
    CALL(dali_machine_due, ready_due),
    CALL(dali_machine_last, ready_last),
    CALL(dali_machine_records, ready_records),
    CALL(dali_machine_table, ready_table),
    CALL(dali_machine_progress, ready_progress),
    CALL(dali_machine_stop, ready_stop),
    CALL(dali_machine_new, ready_machine_new),
    CALL(dali_records_add, ready_records_add),
    CALL(dali_records_new, ready_records_new),
    CALL(dali_passes_new, ready_passes_new),
    CALL(dali_passes_step, ready_passes_step),
    CALL(dali_levels_new, ready_levels_new),
    CALL(dali_window_new, ready_window_new),
    CALL(dali_receiver_new, ready_receiver_new),
    CALL(dali_window_time, ready_window_time),
    CALL(dali_receiver_time, ready_receiver_time),
    CALL(dali_window_edge, ready_window_edge),
    CALL(dali_receiver_edge, ready_receiver_edge),
    CALL(dali_port_new, ready_port_new),
    CALL(dali_port_send, ready_port_send),
    CALL(dali_port_timer, ready_port_timer),
    CALL(dali_port_edge, ready_port_edge),
    CALL(dali_port_lost, ready_port_edge),
};

#define CALLS (sizeof calls / sizeof *calls)
/* The first of those at the pins, of those that take a time, and of those that take an edge. */
#define AT_PINS 14
#define TAKE_TIME 17
#define TAKE_EDGE 19
#define AT_PORTS 21
/* The phase of a port whose frame was sent whole. */
#define LISTENS 4
/* How often each trouble comes, per million frames, and when a machine that does not end is left. */
#ifndef TROUBLED
#define TROUBLED 0
#endif
#define MOST_MOMENTS 20000
_Static_assert(CALLS <= sizeof stacks / sizeof *stacks, "each call has a stack");

/* The structs of the header, which tools/measure/firmware lists. */

#define STRUCT(name) {#name, sizeof(struct name)},

static const struct {
    const char *name;
    uint32_t size;
} structs[] = {
#include "structs.h"
};

static void must(int is_so, const char *what)
{
    if (!is_so) {
        say("wrong ");
        say(what);
        say("\n");
        end(0);
    }
}

#ifdef __riscv
/* How many instructions are counted from before a call on this stack, with these arguments, to after it. What it answers. */
__attribute__((naked)) static uint32_t counted(const struct arguments *arguments, void (*entry)(void), uint32_t *top,
                                               uint32_t *counts)
{
    __asm__ volatile(".option arch, +zicsr\n"
                     "addi sp, sp, -16\n"
                     "sw ra, 0(sp)\n"
                     "sw s0, 4(sp)\n"
                     "sw s1, 8(sp)\n"
                     "sw s2, 12(sp)\n"
                     "mv s0, sp\n"
                     "mv s1, a3\n"
                     "mv t1, a1\n"
                     "mv sp, a2\n"
                     "mv t0, a0\n"
                     "lw a0, 0(t0)\n"
                     "lw a1, 4(t0)\n"
                     "lw a2, 8(t0)\n"
                     "lw a3, 12(t0)\n"
                     "lw a4, 16(t0)\n"
                     "csrr s2, minstret\n"
                     "jalr t1\n"
                     "csrr t0, minstret\n"
                     "sub t0, t0, s2\n"
                     "sw t0, 0(s1)\n"
                     "mv sp, s0\n"
                     "lw ra, 0(sp)\n"
                     "lw s0, 4(sp)\n"
                     "lw s1, 8(sp)\n"
                     "lw s2, 12(sp)\n"
                     "addi sp, sp, 16\n"
                     "ret\n");
}

/* Takes two instructions: this one, and the return. */
__attribute__((naked)) static void two_instructions(void)
{
    __asm__ volatile("li a0, 0\n"
                     "ret\n");
}

/* So many turns of three instructions but for the last one, which takes two, and the return. */
__attribute__((naked)) static void turns(void)
{
    __asm__ volatile("1: addi a0, a0, -1\n"
                     "beqz a0, 2f\n"
                     "j 1b\n"
                     "2: ret\n");
}

/* The number of instructions of a call, from its first one to its return. */
static uint32_t instructions(const struct arguments *arguments, void (*entry)(void), uint32_t *top, uint32_t *status)
{
    uint32_t counts;

    *status = counted(arguments, entry, top, &counts);
    return counts - 2; /* beside the call: jalr, and a read of the counter */
}

static void start_counting(void)
{
}
#elif defined(__aarch64__)
/* The same, by the first counter of events. */
__attribute__((naked)) static uint32_t counted(const struct arguments *arguments, void (*entry)(void), uint32_t *top,
                                               uint32_t *counts)
{
    __asm__ volatile("stp x29, x30, [sp, #-48]!\n"
                     "stp x19, x20, [sp, #16]\n"
                     "str x21, [sp, #32]\n"
                     "mov x19, sp\n"
                     "mov x20, x3\n"
                     "mov x9, x1\n"
                     "mov sp, x2\n"
                     "mov x10, x0\n"
                     "ldp x0, x1, [x10]\n"
                     "ldp x2, x3, [x10, #16]\n"
                     "ldr x4, [x10, #32]\n"
                     "mrs x21, pmevcntr0_el0\n"
                     "blr x9\n"
                     "mrs x9, pmevcntr0_el0\n"
                     "sub x9, x9, x21\n"
                     "str w9, [x20]\n"
                     "mov sp, x19\n"
                     "ldp x19, x20, [sp, #16]\n"
                     "ldr x21, [sp, #32]\n"
                     "ldp x29, x30, [sp], #48\n"
                     "ret\n");
}

__attribute__((naked)) static void two_instructions(void)
{
    __asm__ volatile("mov x0, #0\n"
                     "ret\n");
}

__attribute__((naked)) static void turns(void)
{
    __asm__ volatile("1: sub x0, x0, #1\n"
                     "cbz x0, 2f\n"
                     "b 1b\n"
                     "2: ret\n");
}

static uint32_t instructions(const struct arguments *arguments, void (*entry)(void), uint32_t *top, uint32_t *status)
{
    uint32_t counts;

    *status = counted(arguments, entry, top, &counts);
    return counts - 2;
}

static void start_counting(void)
{
}
#else
/* How many counts pass from before a call on this stack, with these arguments, to after it. What it answers. */
__attribute__((naked)) static uint32_t counted(const struct arguments *arguments, void (*entry)(void), uint32_t *top,
                                               uint32_t *counts)
{
    __asm__ volatile("push {r3, r4, r5, r6, r7, lr}\n"
                     "mov r4, sp\n"
                     "mov r7, r1\n"
                     "mov r6, r0\n"
                     "ldr r5, =0xE000E018\n"
                     "mov sp, r2\n"
                     "ldm r6!, {r0, r1, r2, r3}\n"
                     "ldr r6, [r5]\n"
                     "blx r7\n"
                     "ldr r5, [r5]\n"
                     "mov sp, r4\n"
                     "subs r6, r6, r5\n"
                     "ldr r3, [sp]\n"
                     "str r6, [r3]\n"
                     "pop {r3, r4, r5, r6, r7, pc}\n"
                     ".ltorg\n");
}

/* Takes two instructions: this one, and the return. */
__attribute__((naked)) static void two_instructions(void)
{
    __asm__ volatile("movs r0, #0\n"
                     "bx lr\n");
}

/* So many turns of three instructions but for the last one, which takes two, and the return. */
__attribute__((naked)) static void turns(void)
{
    __asm__ volatile("1: subs r0, #1\n"
                     "beq 2f\n"
                     "b 1b\n"
                     "2: bx lr\n");
}

/* The number of instructions of a call, from its first one to its return. */
static uint32_t instructions(const struct arguments *arguments, void (*entry)(void), uint32_t *top, uint32_t *status)
{
    uint32_t counts;

    (void)SYSTICK_CONTROL; /* which forgets that it passed 0 */
    SYSTICK_COUNT = 0;
    *status = counted(arguments, entry, top, &counts);
    must((SYSTICK_CONTROL & SYSTICK_PASSED) == 0, "a call is too long to be counted");
    /* 40 ns a count, 128 ns an instruction, and two are beside the call: blx, and the load of the second count. */
    return ((counts & SYSTICK_MOST) * 5 + 8) / 16 - 2;
}

static void start_counting(void)
{
    SYSTICK_RELOAD = SYSTICK_MOST;
    SYSTICK_CONTROL = SYSTICK_ON;
}
#endif

static void check_counting(void)
{
    struct arguments some = {{1000}};
    uint32_t *top = stacks[0] + STACK_WORDS;
    uint32_t status;

    must(instructions(&some, two_instructions, top, &status) == 2, "two instructions are counted otherwise");
    must(instructions(&some, turns, top, &status) == 3000, "3000 instructions are counted otherwise");
    for (some.at[0] = 1; some.at[0] < 200; some.at[0]++)
        must(instructions(&some, turns, top, &status) == 3 * some.at[0], "some instructions are counted otherwise");
}

static void note(struct figure *bands, uint32_t count)
{
    struct figure *figure = &bands[course.enrolled < 16 * BANDS ? course.enrolled / 16 : BANDS - 1];

    figure->calls++;
    figure->sum += count;
    figure->most = count > figure->most ? count : figure->most;
}

/* How many instructions the call took. */
static uint32_t measure(struct call *call, uint32_t *stack)
{
    struct arguments arguments;
    uint32_t count, status;

    if (!call->ready(&course, &arguments))
        return 0;
    stack[STACK_WORDS - ABOVE] = (uint32_t)arguments.at[4];
    count = instructions(&arguments, call->entry, stack + STACK_WORDS - ABOVE, &status);
    must((uint8_t)status == DALI_OK, call->name);
    note(call->figures, count);
    return count;
}

static void measure_from(unsigned first, unsigned end)
{
    for (unsigned at = first; at < end; at++)
        measure(&calls[at], stacks[at]);
}

static void measure_beside(void)
{
    measure_from(2, AT_PINS);
}

/* A frame at the pins, as a number of so many bits with its start bit: each edge, and the time before it. */
static void hear(uint32_t bits, uint32_t number)
{
    uint32_t was_low = 0;

    course.number = number;
    course.micros = 3000;
    for (uint32_t half = 0; half <= 2 * bits; half++) {
        /* A bit 1 is low in its first half, a bit 0 in its second one. */
        course.is_low = half < 2 * bits && (number >> (bits - 1 - half / 2) & 1) != half % 2;
        if (course.is_low != was_low) {
            measure_from(TAKE_TIME, AT_PORTS);
            course.micros = 0;
        }
        was_low = course.is_low;
        course.micros += 417;
    }
}

/* Two bytes, a forward frame and one for other devices in one window, then it is over. */
static void measure_pins(void)
{
    for (uint32_t byte = 0; byte < 256; byte++) {
        measure_from(AT_PINS, TAKE_TIME);
        hear(9, 0x100 + byte);
        if (byte % 2 == 0) {
            hear(17, 0x10000 + 257 * byte);
            hear(25, 0x1000000 + 65793 * byte);
        }
        course.micros = 20000;
        measure_from(TAKE_TIME, TAKE_EDGE);
    }
}

static void port_edge(uint32_t is_low, uint32_t now)
{
    course.is_low = is_low;
    course.now = now;
    measure_from(AT_PORTS + 3, AT_PORTS + 4);
}

/* The edges of a frame of others on a port, as a number of so many bits with its start bit. */
static void port_hears(uint32_t bits, uint32_t number, uint32_t from)
{
    uint32_t was_low = 0;

    for (uint32_t half = 0; half <= 2 * bits; half++) {
        uint32_t is_low = half < 2 * bits && (number >> (bits - 1 - half / 2) & 1) != half % 2;

        if (is_low != was_low)
            port_edge(is_low, from + 417 * half);
        was_low = is_low;
    }
}

/* Edges so often that a capture unit may lose one. */
static void port_noise(uint32_t from)
{
    for (uint32_t edge = 0; edge < 20; edge++)
        port_edge(edge % 2 == 0, from + 10 * edge);
}

/* A port sends frames, of which half are answered and some are followed by noise, each edge of the bus 15 us late; it reads frames of others; and edges are lost. */
static void measure_ports(void)
{
    for (uint32_t frame = 0; frame < 128; frame++) {
        course.number = 509 * frame;
        course.other_order = (struct dali_order){DALI_PUT, DALI_FIRST_PRIORITY, course.number >> 8 & 0xFF, course.number & 0xFF, 1, DALI_WHOLE,
                                                 {0, {0, {0, 0, 0}}}, 0};
        measure_from(AT_PORTS, AT_PORTS + 2);
        for (uint32_t was_low = 0, listens = 0; course.event.input == 0; was_low = course.event.is_low) {
            course.now = course.event.at;
            measure_from(AT_PORTS + 2, AT_PORTS + 3);
            if (course.event.is_low != was_low)
                port_edge(course.event.is_low, course.now + 15);
            if (course.port.phase != LISTENS || listens++ > 0)
                continue;
            if (frame % 2 == 0)
                port_hears(9, 0x100 + frame, course.now + 5000);
            else if (frame % 8 == 1)
                port_noise(course.now + 5000);
        }
        port_hears(17, 0x10000 + course.number, course.now + 9000);
        course.now = course.event.at;
        measure_from(AT_PORTS + 2, AT_PORTS + 3);
        port_noise(course.now + 1000);
        course.is_low = frame % 2;
        measure_from(AT_PORTS + 4, AT_PORTS + 5);
    }
}

/* Does what the step ordered. 0 where the machine has ended. */
static int follow(void)
{
    const struct dali_order *order = &course.order;

    if (order->kind == DALI_PUT)
        course.told = bus_send(&course.bus, order->address_byte, order->opcode_byte);
    else if (order->kind == DALI_COMMIT)
        course.told = (struct told){DALI_COMMITTED, 0};
    course.enrolled += order->kind == DALI_COMMIT && order->record.kind == DALI_ENROL;
    return order->kind == DALI_PUT || order->kind == DALI_COMMIT;
}

/* Each gear has an address of its own, and the table names it. */
static int is_commissioned(void)
{
    uint8_t is_held[UINT8_MAX + 1] = {0};
    unsigned held = 0;

    for (unsigned at = 0; at < course.bus.gear_count; at++) {
        uint8_t byte = course.bus.gear[at].short_byte;

        held += byte != GEAR_MASK && !is_held[byte];
        is_held[byte] = 1;
    }
    return held == course.bus.gear_count && course.enrolled == held && course.order.kind == DALI_DONE;
}

/* A machine with these records takes steps until it has ended. Where there are troubles, it may end otherwise than with all
 * gear commissioned, or not at all. */
static void run(uint8_t start)
{
    unsigned last = course.moment + MOST_MOMENTS;

    must(dali_machine_new(&course.machine, &course.records) == DALI_OK, "no machine");
    course.told = (struct told){start, 0};
    do {
        uint32_t counts[2];

        if (course.moment++ % BESIDE == 0)
            measure_beside();
        counts[1] = measure(&calls[1], stacks[1]);
        counts[0] = measure(&calls[0], stacks[0]);
        if (course.order.kind == DALI_PUT && course.order.priority == 1) {
            note(later[0], counts[0]);
            note(later[1], counts[1]);
        }
    } while (follow() && course.moment < last);
    measure_beside();
    must(TROUBLED > 0 || is_commissioned(), "the gear are not commissioned");
}

/* A machine comes up without records. */
static void run_new(uint8_t start)
{
    must(dali_records_new(&course.records, 0, DALI_ADDRESSES - 1) == DALI_OK, "no records");
    course.enrolled = 0;
    run(start);
}

/* A machine comes up with the records of the one before. */
static void run_again(uint8_t start)
{
    must(dali_machine_records(&course.machine, &course.records) == DALI_OK, "no records");
    run(start);
}

/* A commissioning, machines that come up with its records, and one without records that asks all gear. */
static void commission(uint64_t seed)
{
    memset(&course, 0, sizeof course);
    bus_new(&course.bus, seed, BUS_MOST_GEAR);
    course.bus.troubles = (struct troubles){TROUBLED, TROUBLED, TROUBLED, TROUBLED, TROUBLED, TROUBLED};
    run_new(DALI_START);
    run_again(DALI_START);
    run_again(DALI_SURVEY);
    run_new(DALI_SURVEY);
    say("frames");
    say_number(course.bus.frames);
    say("\n");
}

static uint32_t depth(const uint32_t *stack)
{
    unsigned at = 0;

    while (at < STACK_WORDS - ABOVE && stack[at] == PAINT)
        at++;
    must(at > 0, "a stack is too small");
    return (STACK_WORDS - ABOVE - at) * 4;
}

static void report_figures(const struct figure *bands)
{
    for (unsigned band = 0; band < BANDS; band++) {
        say_number(bands[band].calls);
        say_number(bands[band].sum);
        say_number(bands[band].most);
    }
    say("\n");
}

static void report_call(const struct call *call, const uint32_t *stack)
{
    say("call ");
    say(call->name);
    say_number(depth(stack));
    report_figures(call->figures);
}

/* The simulated gear are those of the example, which can be killed; here nothing is. */
void stop_on_bus(void)
{
}

int main(void)
{
    start_counting();
    check_counting();
    for (uint32_t *word = stacks[0]; word < stacks[0] + CALLS * STACK_WORDS; word++)
        *word = PAINT;
    measure_pins();
    measure_ports();
    for (unsigned run = 0; run < COMMISSIONINGS; run++)
        commission(SEED + run);
    for (unsigned at = 0; at < sizeof structs / sizeof *structs; at++) {
        say("struct ");
        say(structs[at].name);
        say_number(structs[at].size);
        say("\n");
    }
    for (unsigned at = 0; at < CALLS; at++)
        report_call(&calls[at], stacks[at]);
    for (unsigned at = 0; at < 2; at++) {
        say("later ");
        say(calls[at].name);
        say_number(0);
        report_figures(later[at]);
    }
    return 1;
}
