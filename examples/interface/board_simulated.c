/* The board of interface.h as qemu simulates it, mps2-an385: its first serial port is that of the host. The bus at its pins is simulated
 * too, with the gear of examples/c: see line.h.
 *
 * The time of the bus goes on as fast as the processor can, if a frame is on its way; else with the bytes of the serial port, 87 us each,
 * and with real time. Gear and edges are kept in the memory at SITE, which may be a file, so that they outlive the board. */
#include "interface.h"
#include "line.h"
#include "support.h"

/* The serial port (CMSDK APB UART). */
#define UART ((volatile uint32_t *)0x40004000)
enum { DATA, STATE, CONTROL, PENDING, DIVISOR };
enum { OUT_FULL = 1, IN_FULL = 2, IN_LOST = 8, ALL_ON = 15, OUT_DONE = 1, IN_DONE = 2 };
/* The watchdog (CMSDK APB watchdog), which counts 25 MHz. It barks after a second, and the board begins anew after one more. */
#define DOG ((volatile uint32_t *)0x40008000)
enum { DOG_LOAD = 0, DOG_CONTROL = 2, DOG_CLEAR = 3, DOG_LOCK = 0x300 };
#define DOG_COUNTS UINT32_C(25000000)
/* Of the processor: its timer, which comes each 10 ms, and which interrupts are on. */
#define TIMER ((volatile uint32_t *)0xE000E010)
#define TICK_COUNTS (25000000 / 100 - 1)
#define ENABLED (*(volatile uint32_t *)0xE000E100)

#define BYTE_TIME 87
#define TICK_TIME 10000
#define MOST_EDGES 2000000
#define MADE UINT32_C(0xDA110001)

/* What tools/check/interface reads and writes, as numbers of 32 bits. */
struct site {
    uint32_t made;
    /* At how many frames more the processor hangs, if it is to. */
    uint32_t hangs_after;
    uint32_t edge_count;
    uint32_t unused;
    struct bus bus;
    /* The edges of the bus: twice the microseconds since the one before, and 1 more if it is low since. */
    uint32_t edges[MOST_EDGES];
};

#define SITE ((struct site *)0x21000000)
#define GEAR 20

static struct line line;
static volatile uint32_t bytes, ticks;
/* Whether a frame is on its way; and the last edge that was kept. */
static int is_sending, is_low;
static uint32_t kept_at;

static void keep_edge(uint32_t since)
{
    if (SITE->edge_count < MOST_EDGES)
        SITE->edges[SITE->edge_count++] = since << 1 | (uint32_t)is_low;
}

/* Keeps the edge that the bus had, if it had one, and tells what the port has told. */
static void look(struct told told)
{
    if (line.is_low != is_low) {
        is_low = line.is_low;
        keep_edge(line.edge_at - kept_at);
        kept_at = line.edge_at;
    }
    if (told.input != 0) {
        is_sending = 0;
        interface_told(told.input, told.byte);
    }
}

static void pass(uint32_t micros)
{
    uint32_t end = line.now + micros;

    while ((int32_t)(end - line.now) > 0)
        look(line_wait(&line, end - line.now));
}

/* Nothing of the simulated gear can be killed alone. */
void stop_on_bus(void)
{
}

void board_begin(void)
{
    if (SITE->made != MADE) {
        SITE->edge_count = SITE->hangs_after = 0;
        bus_new(&SITE->bus, 1, GEAR);
        SITE->made = MADE;
    }
    is_low = SITE->edge_count > 0 && (SITE->edges[SITE->edge_count - 1] & 1);
    board_release();
    UART[DIVISOR] = 217;
    UART[CONTROL] = ALL_ON;
    ENABLED = 3;
    TIMER[1] = TICK_COUNTS;
    TIMER[2] = 0;
    TIMER[0] = 7;
    DOG[DOG_LOCK] = UINT32_C(0x1ACCE551);
    DOG[DOG_LOAD] = DOG_COUNTS;
    DOG[DOG_CONTROL] = 3;
}

uint32_t board_clock(void)
{
    return line.now;
}

uint8_t board_send(const struct dali_order *order)
{
    uint8_t status;

    if (SITE->hangs_after > 0 && --SITE->hangs_after == 0) {
        for (;;)
            ;
    }
    status = line_put(&line, order, 0);
    is_sending = status == DALI_OK;
    return status;
}

void board_release(void)
{
    if (is_low) {
        is_low = 0;
        keep_edge(BYTE_TIME);
    }
    line_begin(&line, &SITE->bus);
    is_sending = 0;
}

static void say_more(void)
{
    int byte;

    while (!(UART[STATE] & OUT_FULL) && (byte = interface_next()) >= 0)
        UART[DATA] = (uint32_t)byte;
}

void board_say(void)
{
    board_lock();
    say_more();
    board_unlock();
}

void board_feed(void)
{
    DOG[DOG_CLEAR] = 1;
}

void board_lock(void)
{
    __asm__ volatile("cpsid i" : : : "memory");
}

void board_unlock(void)
{
    __asm__ volatile("cpsie i" : : : "memory");
}

void board_rest(void)
{
    uint32_t passed = bytes * BYTE_TIME + ticks * TICK_TIME;

    bytes = ticks = 0;
    if (is_sending)
        look(line_wait(&line, LINE_LONGEST));
    else if (passed > 0)
        pass(passed);
    else
        __asm__ volatile("wfi" : : : "memory");
}

/* The interrupt of the processor's timer. */
void tick(void)
{
    ticks++;
}

/* Nothing fed the watchdog: the second time it begins anew. */
void bark(void)
{
    for (;;)
        ;
}

/* The interrupts of the serial port. */
void interrupt(void)
{
    UART[PENDING] = OUT_DONE | IN_DONE;
    UART[STATE] = IN_LOST;
    while (UART[STATE] & IN_FULL) {
        interface_received((uint8_t)UART[DATA]);
        bytes++;
    }
    say_more();
}
