/* A simulated bus with DALI control gear. */
#include "gear.h"

#include "chance.h"
#include "dali_c.h"
#include "stop.h"

#include <string.h>

#define YES 0xFF
#define NO_ANSWER (-1)

void bus_new(struct bus *bus, uint64_t seed, uint32_t gear_count)
{
    memset(bus, 0, sizeof *bus);
    bus->chance = seed;
    bus->gear_count = gear_count;
    for (uint32_t at = 0; at < BUS_MOST_GEAR; at++) {
        bus->gear[at].random_address = GEAR_MASK24;
        bus->gear[at].search_address = GEAR_MASK24;
        bus->gear[at].short_byte = GEAR_MASK;
    }
}

static int is_drawn(const struct bus *bus, uint32_t number)
{
    for (uint32_t at = 0; at < bus->gear_count; at++) {
        if (bus->gear[at].random_address == number)
            return 1;
    }
    return 0;
}

/* The next random address, whatever was drawn before. Two gear with one random address cannot be told apart, which is the
 * standard's own hazard; so that it does not come here, a number that some gear has is drawn again. */
static uint32_t drawn_next(struct bus *bus)
{
    uint32_t number = GEAR_MASK24;

    while (number == GEAR_MASK24 || is_drawn(bus, number))
        number = (uint32_t)(chance_next(&bus->chance) >> 40);
    return number;
}

/* A short address as a data byte. */
static int is_short_byte(uint8_t byte)
{
    return byte < 0x80 && byte % 2 == 1;
}

static int is_send_twice(uint8_t address_byte, uint8_t opcode_byte)
{
    switch (address_byte) {
    case 0xA5:
        return opcode_byte == 0 || opcode_byte == GEAR_MASK || is_short_byte(opcode_byte);
    case 0xA7:
        return opcode_byte == 0;
    default:
        return 0;
    }
}

static void set_search_byte(struct gear *gear, int shift, uint8_t byte)
{
    if (gear->state != GEAR_DISABLED) {
        gear->search_address &= ~(UINT32_C(0xFF) << shift);
        gear->search_address |= (uint32_t)byte << shift;
    }
}

/* What a gear answers to QUERY RANDOM ADDRESS (H), (M) or (L), in any state. */
static int random_byte(const struct gear *gear, uint8_t address_byte, uint8_t opcode_byte)
{
    if (!is_short_byte(address_byte) || gear->short_byte != address_byte)
        return NO_ANSWER;
    switch (opcode_byte) {
    case 0xC2:
        return (int)(gear->random_address >> 16);
    case 0xC3:
        return (int)(gear->random_address >> 8 & 0xFF);
    case 0xC4:
        return (int)(gear->random_address & 0xFF);
    default:
        return NO_ANSWER;
    }
}

/* One gear takes a frame. What it answers, or NO_ANSWER. */
static int gear_take(struct gear *gear, struct bus *bus, uint8_t address_byte, uint8_t opcode_byte)
{
    int twice = is_send_twice(address_byte, opcode_byte);
    int second = twice && gear->half_address == address_byte && gear->half_opcode == opcode_byte;
    int active = gear->state != GEAR_DISABLED;
    int found = gear->random_address == gear->search_address;

    gear->half_address = twice && !second ? address_byte : 0;
    gear->half_opcode = opcode_byte;
    switch (address_byte) {
    case 0xA1: /* TERMINATE */
        if (opcode_byte == 0)
            gear->state = GEAR_DISABLED;
        return NO_ANSWER;
    case 0xA5: /* INITIALISE */
        if (second && (opcode_byte == 0 || opcode_byte == gear->short_byte))
            gear->state = GEAR_ENABLED;
        return NO_ANSWER;
    case 0xA7: /* RANDOMISE */
        if (second && active)
            gear->random_address = drawn_next(bus);
        return NO_ANSWER;
    case 0xA9: /* COMPARE */
        if (opcode_byte == 0 && gear->state == GEAR_ENABLED
            && gear->random_address <= gear->search_address)
            return YES;
        return NO_ANSWER;
    case 0xAB: /* WITHDRAW */
        if (opcode_byte == 0 && gear->state == GEAR_ENABLED && found)
            gear->state = GEAR_WITHDRAWN;
        return NO_ANSWER;
    case 0xB1: /* SEARCHADDRH */
        set_search_byte(gear, 16, opcode_byte);
        return NO_ANSWER;
    case 0xB3: /* SEARCHADDRM */
        set_search_byte(gear, 8, opcode_byte);
        return NO_ANSWER;
    case 0xB5: /* SEARCHADDRL */
        set_search_byte(gear, 0, opcode_byte);
        return NO_ANSWER;
    case 0xB7: /* PROGRAM SHORT ADDRESS */
        if (active && found && (opcode_byte == GEAR_MASK || is_short_byte(opcode_byte)))
            gear->short_byte = opcode_byte;
        return NO_ANSWER;
    case 0xB9: /* VERIFY SHORT ADDRESS */
        if (active && is_short_byte(opcode_byte) && gear->short_byte == opcode_byte)
            return YES;
        return NO_ANSWER;
    case 0xBB: /* QUERY SHORT ADDRESS */
        return opcode_byte == 0 && active && found ? gear->short_byte : NO_ANSWER;
    default:
        return random_byte(gear, address_byte, opcode_byte);
    }
}

static void lose_power(struct gear *gear)
{
    gear->state = GEAR_DISABLED;
    gear->search_address = GEAR_MASK24;
    gear->half_address = 0;
}

static int happens(struct bus *bus, uint32_t per_million)
{
    return chance_below(&bus->chance, MILLION) < per_million;
}

/* The backward frames to one forward frame: how many, the last of them, and whether all are
 * equal. */
struct answers {
    unsigned count;
    uint8_t byte;
    int equal;
};

/* What is heard of them. Several together are damaged, or a clean byte if all are equal. An
 * answer is never turned into another byte, and if no gear answers no byte is heard. */
static struct told heard(struct bus *bus, const struct answers *answers)
{
    struct told silence = {DALI_HEARD_SILENCE, 0};
    struct told damaged = {DALI_HEARD_DAMAGED, 0};
    struct told byte = {DALI_HEARD_BYTE, answers->byte};

    if (answers->count == 0)
        return happens(bus, bus->troubles.joined) ? damaged : silence;
    if (happens(bus, bus->troubles.lost))
        return silence;
    if (happens(bus, bus->troubles.damaged) || !answers->equal)
        return damaged;
    return answers->count > 1 && happens(bus, MILLION / 2) ? damaged : byte;
}

struct told bus_send(struct bus *bus, uint8_t address_byte, uint8_t opcode_byte)
{
    struct told lapsed = {DALI_LAPSED, 0};
    struct told destroyed = {DALI_DESTROYED, 0};
    struct answers answers = {0, 0, 1};
    int whole;

    stop_on_bus();
    if (bus->gear_count > 0 && happens(bus, bus->troubles.power))
        lose_power(&bus->gear[chance_below(&bus->chance, bus->gear_count)]);
    if (happens(bus, bus->troubles.lapsed))
        return lapsed;
    whole = !happens(bus, bus->troubles.destroyed);
    for (uint32_t at = 0; at < bus->gear_count; at++) {
        if (whole || happens(bus, MILLION / 2)) {
            int answer = gear_take(&bus->gear[at], bus, address_byte, opcode_byte);

            if (answer != NO_ANSWER) {
                answers.equal = answers.equal && (answers.count == 0 || answers.byte == answer);
                answers.byte = (uint8_t)answer;
                answers.count++;
            }
        }
    }
    bus->frames++;
    stop_on_bus();
    return whole ? heard(bus, &answers) : destroyed;
}
