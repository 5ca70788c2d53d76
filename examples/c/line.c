#include "line.h"
#include "chance.h"

#include <string.h>

#define HALF_BIT 417
/* From the first edge of a frame: before its last one, and in the wait before the next frame. */
#define MIDST 14000
#define AFTER 30000
/* From the end of a pair's first frame to the end of its second, as gear take it: 100 ms less a frame. */
#define PAIR 86000

static struct line *line_of(struct pins *pins)
{
    return (struct line *)(void *)pins;
}

static void pull(struct line *line, uint32_t at, uint32_t halves)
{
    line->half_at = at;
    line->half = 0;
    line->halves = halves;
}

/* What gear answer to a frame that they have read, 7 ms after it. A byte that ends in its midst is damaged. */
static void answer(struct line *line, const struct dali_told *read)
{
    struct troubles troubles = line->bus->troubles;
    struct told told = {DALI_HEARD_SILENCE, 0};

    if (read->kind == DALI_NO_FRAME)
        return;
    for (uint32_t at = 0; line->now - line->read_at > PAIR && at < line->bus->gear_count; at++)
        line->bus->gear[at].half_address = 0;
    line->read_at = line->now;
    line->bus->troubles.destroyed = line->bus->troubles.lapsed = 0;
    if (read->kind == DALI_FORWARD_FRAME)
        told = bus_send(line->bus, read->bytes[0], read->bytes[1]);
    line->bus->troubles = troubles;
    if (told.input != DALI_HEARD_SILENCE) {
        dali_levels_new(&line->others, told.byte, 0);
        pull(line, line->edge_at + 7000, told.input == DALI_HEARD_BYTE ? 18 : 11);
    }
}

static void settle(struct line *line)
{
    uint8_t is_low = line->is_driven | line->is_pulled | line->is_dead;
    struct dali_told read;

    if (is_low != line->is_low) {
        dali_receiver_edge(&line->reader, is_low, line->now - line->edge_at, &read);
        answer(line, &read);
        line->is_low = is_low;
        line->edge_at = line->now;
        line->is_captured = 1;
    }
}

uint32_t pins_clock(struct pins *pins)
{
    return line_of(pins)->now;
}

int pins_captured(struct pins *pins, uint32_t *time)
{
    *time = line_of(pins)->edge_at;
    return line_of(pins)->is_captured && line_of(pins)->is_captured--;
}

uint8_t pins_level(struct pins *pins)
{
    return line_of(pins)->is_low;
}

void pins_tell(struct pins *pins, const struct dali_event *event)
{
    if (event->input != 0)
        line_of(pins)->told = (struct told){event->input, event->byte};
}

/* A frame of the port has begun. */
static void disturb(struct line *line)
{
    uint64_t *chance = &line->bus->chance;
    int is_destroyed = line->is_destroyed || chance_below(chance, MILLION) < line->bus->troubles.destroyed;

    line->is_waiting = 0;
    if (is_destroyed || chance_below(chance, MILLION) < line->bus->troubles.lapsed) {
        memset(&line->others, 1, sizeof line->others);
        pull(line, line->now + chance_below(chance, is_destroyed ? MIDST : AFTER), 3);
    }
}

void pins_drive(struct pins *pins, uint8_t is_low, uint32_t at)
{
    struct line *line = line_of(pins);

    if (is_low && line->is_waiting)
        disturb(line);
    line->is_driven = is_low;
    line->compare = at;
    settle(line);
}

void line_begin(struct line *line, struct bus *bus)
{
    struct line begun = {.bus = bus, .is_dead = line->is_dead, .is_low = line->is_dead};

    begun.now = begun.edge_at = line->now + MILLION;
    begun.half = 1;
    dali_receiver_new(&begun.reader);
    *line = begun;
    pins_begin(&line->pins);
}

uint8_t line_put(struct line *line, const struct dali_order *order, int is_destroyed)
{
    line->is_waiting = 1;
    line->is_destroyed = is_destroyed != 0;
    return pins_send(&line->pins, order, chance_below(&line->bus->chance, 1201));
}

struct told line_wait(struct line *line, uint32_t most)
{
    uint32_t end = (int32_t)(line->compare - line->now) > (int32_t)most ? line->now + most : line->compare;
    int is_half = line->half <= line->halves && (int32_t)(line->half_at - end) < 0;
    uint32_t next = is_half ? line->half_at : end;
    struct dali_told read;
    struct told told;

    if (!line->is_captured && line->told.input == 0) {
        line->now = (int32_t)(next - line->now) > 0 ? next : line->now;
        if (is_half) {
            line->is_pulled = line->half < line->halves && line->others.is_low[line->half];
            line->half++;
            line->half_at += HALF_BIT;
            settle(line);
        }
        dali_receiver_time(&line->reader, line->now - line->edge_at, &read);
        answer(line, &read);
    }
    pins_interrupt(&line->pins);
    told = line->told;
    line->told.input = 0;
    return told;
}
