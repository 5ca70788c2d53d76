/* The board of examples/interface as a process of this computer, for adapters/tests/test-serial: its serial port is standard input and output, and
 * on standard error it says what it does with the bus. Its gear take frames whole, without edges and without the library for C.
 *
 * BOARD_GEAR says how many gear there are, BOARD_FRAME how many us a frame takes, BOARD_BURST how many bytes come at once, and BOARD_WORD what
 * becomes of frames in place of what gear answer, a digit of enum dali_input for each, 0 if none is told. */
#define _POSIX_C_SOURCE 200809L
#include "gear.h"
#include "interface.h"

#include <poll.h>
#include <stdio.h>
#include <stdlib.h>
#include <time.h>
#include <unistd.h>

#define IN 0
#define OUT 1
#define LOG 2
#define MOST 4096

static struct bus bus;
static struct told word;
static int is_due;
static uint32_t due, frame_time, burst;
static const char *words;

static uint32_t setting(const char *name, uint32_t usual)
{
    const char *text = getenv(name);

    return text ? (uint32_t)strtoul(text, NULL, 10) : usual;
}

static void wrote(ssize_t count)
{
    if (count < 0)
        exit(0);
}

void stop_on_bus(void)
{
}

void board_begin(void)
{
    bus_new(&bus, setting("BOARD_SEED", 1), setting("BOARD_GEAR", 1));
    frame_time = setting("BOARD_FRAME", 200);
    burst = setting("BOARD_BURST", 64);
    words = getenv("BOARD_WORD");
}

uint32_t board_clock(void)
{
    struct timespec now;

    clock_gettime(CLOCK_MONOTONIC, &now);
    return (uint32_t)now.tv_sec * 1000000 + (uint32_t)(now.tv_nsec / 1000);
}

uint8_t board_send(const struct dali_order *order)
{
    int is_told = !words || *words != '0';
    char text[64];

    wrote(write(LOG, text, (size_t)snprintf(text, sizeof text, "%u %02X%02X %s %u\n", order->priority, order->address_byte, order->opcode_byte,
                                             order->asks ? "ask" : "tell", order->half)));
    word = bus_send(&bus, order->address_byte, order->opcode_byte);
    if (words && *words != 0)
        word = (struct told){(uint8_t)(*words++ - '0'), 0x21};
    due = board_clock() + frame_time;
    is_due = is_told;
    return DALI_OK;
}

void board_release(void)
{
    wrote(write(LOG, "released\n", 9));
    is_due = 0;
}

void board_say(void)
{
    int byte;

    while ((byte = interface_next()) >= 0) {
        char one = (char)byte;

        wrote(write(OUT, &one, 1));
    }
}

void board_feed(void)
{
}

void board_lock(void)
{
}

void board_unlock(void)
{
}

/* Waits for bytes, or for the end of the frame. */
void board_rest(void)
{
    static uint8_t bytes[MOST];
    int32_t left = is_due ? (int32_t)(due - board_clock()) : 20000;
    struct pollfd port = {IN, POLLIN, 0};
    ssize_t count;

    if (poll(&port, 1, left > 0 ? (left + 999) / 1000 : 0) > 0) {
        count = read(IN, bytes, burst < MOST ? burst : MOST);
        if (count <= 0)
            exit(0);
        for (ssize_t at = 0; at < count; at++)
            interface_received(bytes[at]);
    } else if (is_due && (int32_t)(board_clock() - due) >= 0) {
        is_due = 0;
        interface_told(word.input, word.byte);
    }
}
