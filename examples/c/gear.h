/* A simulated bus with DALI control gear (IEC 62386-102:2014), in place of a real one. */
#ifndef GEAR_H
#define GEAR_H

#include <stdint.h>

#define BUS_MOST_GEAR 64
/* A random address from the factory, and a search address at power-on. */
#define GEAR_MASK24 UINT32_C(0xFFFFFF)
/* The short address of a gear that has none. */
#define GEAR_MASK 0xFF

enum gear_state { GEAR_DISABLED = 0, GEAR_ENABLED = 1, GEAR_WITHDRAWN = 2 };

/* The variables of addressing of one gear. */
struct gear {
    uint32_t random_address;
    uint32_t search_address;
    uint8_t state;
    /* As QUERY SHORT ADDRESS answers it: 2 * address + 1, or GEAR_MASK. */
    uint8_t short_byte;
    /* The first frame of a send-twice pair, if it was the last frame that the gear took. No
     * such frame has address byte 0. */
    uint8_t half_address;
    uint8_t half_opcode;
};

/* How often each trouble comes, per million frames. */
#define MILLION 1000000
struct troubles {
    /* The frame is destroyed; each gear takes it or not. */
    uint32_t destroyed;
    /* The bus is lost before the frame is sent. */
    uint32_t lapsed;
    /* No answer is heard, whichever gear answers. */
    uint32_t lost;
    /* An answer is heard as damaged. */
    uint32_t damaged;
    /* A damaged answer is heard if no gear answers. */
    uint32_t joined;
    /* A gear is without power for a moment. */
    uint32_t power;
};

/* It holds no pointer, so it can live in a mapped file and outlive a controller that is killed. */
struct bus {
    uint64_t chance;
    uint32_t frames;
    struct troubles troubles;
    uint32_t gear_count;
    struct gear gear[BUS_MOST_GEAR];
};

/* What the controller is told of a frame: an input of dali_machine_step, and its byte. */
struct told {
    uint8_t input;
    uint8_t byte;
};

/* A bus without troubles, with gear from the factory, at most BUS_MOST_GEAR. */
void bus_new(struct bus *bus, uint64_t seed, uint32_t gear_count);

/* Sends a forward frame of two bytes, and waits for the time of a backward frame. */
struct told bus_send(struct bus *bus, uint8_t address_byte, uint8_t opcode_byte);

#endif
