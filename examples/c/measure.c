/* How long a step of a machine takes, and how much of the stack each call takes.
 *
 *     measure [COMMISSIONINGS]
 *
 * Each commissioning gives 64 gear their addresses; a step's time counts for how many are enrolled
 * then. The stack is painted before a call; how deep it was changed is how much the call took. */
#define _POSIX_C_SOURCE 200809L

#include "dali_c.h"
#include "gear.h"

#include <stdint.h>
#include <stdio.h>
#include <stdlib.h>
#include <time.h>

#define PARTS 4
#define PAINTED_BYTES (64 * 1024)
/* So near to the frame that measures nothing is painted, since it may be that frame itself. */
#define NEAR_BYTES 256
#define PAINT 0x5C

static double nanoseconds(void)
{
    struct timespec now;

    clock_gettime(CLOCK_MONOTONIC, &now);
    return (double)now.tv_sec * 1e9 + (double)now.tv_nsec;
}

/* One commissioning, step by step, and what the other calls work upon. */
struct course {
    struct dali_machine machine;
    struct dali_order order;
    struct dali_records records;
    struct dali_table table;
    struct bus bus;
    struct told told;
    int enrolled;
    uint8_t due;
};

static void course_begin(struct course *course, uint64_t seed)
{
    bus_new(&course->bus, seed, BUS_MOST_GEAR);
    dali_records_new(&course->records, 0, DALI_ADDRESSES - 1);
    dali_machine_new(&course->machine, &course->records);
    course->told = (struct told){DALI_START, 0};
    course->enrolled = 0;
}

/* Does what the step ordered. 0 if the machine has ended. */
static int course_follow(struct course *course)
{
    const struct dali_order *order = &course->order;

    switch ((enum dali_order_kind)order->kind) {
    case DALI_PUT:
        course->told = bus_send(&course->bus, order->address_byte, order->opcode_byte);
        return 1;
    case DALI_COMMIT:
        course->told.input = DALI_COMMITTED;
        course->enrolled += order->record.kind == DALI_ENROL;
        return 1;
    case DALI_DONE:
    case DALI_HALT:
    case DALI_NOTHING_ORDERED:
        break;
    }
    return 0;
}

static void call_step(struct course *course)
{
    dali_machine_step(&course->machine, course->told.input, course->told.byte, &course->order);
}

static void call_due(struct course *course)
{
    dali_machine_due(&course->machine, &course->due);
}

static void call_last(struct course *course)
{
    dali_machine_last(&course->machine, &course->order);
}

static void call_records(struct course *course)
{
    dali_machine_records(&course->machine, &course->records);
}

static void call_table(struct course *course)
{
    dali_machine_table(&course->machine, &course->table);
}

/* Takes the last record back first, so that it can be added. */
static void call_records_add(struct course *course)
{
    struct dali_record last = {DALI_ENROL, course->records.enrolled.pairs[DALI_ADDRESSES - 1]};

    course->records.enrolled.count = DALI_ADDRESSES - 1;
    dali_records_add(&course->records, &last);
}

static void call_machine_new(struct course *course)
{
    dali_machine_new(&course->machine, &course->records);
}

static void call_records_new(struct course *course)
{
    dali_records_new(&course->records, 0, DALI_ADDRESSES - 1);
}

/* How many bytes of the stack below this frame a call changes. */
static unsigned long depth_of(void (*call)(struct course *), struct course *course)
{
    unsigned char here = 0;
    uintptr_t top = (uintptr_t)&here - NEAR_BYTES;
    uintptr_t lowest = top - PAINTED_BYTES;

    for (uintptr_t at = lowest; at < top; at++)
        *(volatile unsigned char *)at = PAINT;
    call(course);
    while (lowest < top && *(volatile unsigned char *)lowest == PAINT)
        lowest++;
    return (unsigned long)((uintptr_t)&here - lowest);
}

/* A whole commissioning, to find the deepest step, and then the other calls, upon a machine that
 * has enrolled 64 gear. */
static void measure_stack(struct course *course)
{
    static const struct {
        const char *name;
        void (*call)(struct course *);
    } calls[] = {
        {"dali_machine_due", call_due},         {"dali_machine_last", call_last},
        {"dali_machine_records", call_records}, {"dali_machine_table", call_table},
        {"dali_records_add", call_records_add}, {"dali_machine_new", call_machine_new},
        {"dali_records_new", call_records_new},
    };
    unsigned long deepest = 0;

    course_begin(course, 1);
    do {
        unsigned long depth = depth_of(call_step, course);

        deepest = depth > deepest ? depth : deepest;
    } while (course_follow(course));
    printf("stack of dali_machine_step: %lu bytes\n", deepest);
    for (size_t at = 0; at < sizeof calls / sizeof calls[0]; at++)
        printf("stack of %s: %lu bytes\n", calls[at].name, depth_of(calls[at].call, course));
}

static void measure_time(struct course *course, int commissionings)
{
    double times[PARTS] = {0};
    unsigned long steps[PARTS] = {0};
    double total = 0;

    for (int run = 0; run < commissionings; run++) {
        course_begin(course, (uint64_t)run);
        do {
            int part = course->enrolled < DALI_ADDRESSES ? course->enrolled / 16 : PARTS - 1;
            double before = nanoseconds();

            call_step(course);
            times[part] += nanoseconds() - before;
            steps[part]++;
        } while (course_follow(course));
    }
    for (int part = 0; part < PARTS; part++) {
        printf("time of a step, %d to %d enrolled: %.0f ns, the mean of %lu\n", part * 16,
               part * 16 + 15, times[part] / (double)steps[part], steps[part]);
        total += times[part];
    }
    printf("time of all steps of a commissioning of 64 gear: %.1f ms\n",
           total / 1e6 / commissionings);
}

int main(int count, char **words)
{
    static struct course course;

    measure_time(&course, count > 1 ? atoi(words[1]) : 20);
    measure_stack(&course);
    return 0;
}
