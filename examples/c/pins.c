#include "pins.h"

static void follow(struct pins *pins)
{
    pins_drive(pins, pins->event.is_low, pins->event.at);
    if (pins->event.input != 0 || pins->event.read.kind != DALI_NO_FRAME)
        pins_tell(pins, &pins->event);
}

/* Hands over each edge that was captured up to now, which it gives. */
static uint32_t caught_up(struct pins *pins)
{
    uint32_t now = pins_clock(pins), time;
    int is_captured;

    while ((is_captured = pins_captured(pins, &time)) != 0) {
        now = pins_clock(pins);
        if (is_captured < 0 || dali_port_edge(&pins->port, pins_level(pins), time, &pins->event) != DALI_OK)
            dali_port_lost(&pins->port, pins_level(pins), now, &pins->event);
        follow(pins);
    }
    return now;
}

void pins_begin(struct pins *pins)
{
    dali_port_new(&pins->port, pins_level(pins), pins_clock(pins), &pins->event);
    follow(pins);
}

uint8_t pins_send(struct pins *pins, const struct dali_order *order, uint32_t drawn)
{
    uint8_t status = dali_port_send(&pins->port, order, drawn, caught_up(pins), &pins->event);

    if (status == DALI_OK)
        follow(pins);
    return status;
}

void pins_interrupt(struct pins *pins)
{
    uint32_t now = caught_up(pins);

    if ((int32_t)(now - pins->event.at) >= 0 && dali_port_timer(&pins->port, now, &pins->event) == DALI_OK)
        follow(pins);
}
