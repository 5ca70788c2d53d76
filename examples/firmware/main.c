/* The controller of node.c with a port at the pins of a simulated bus, and a simulated flash. Its power is cut at random moments of
 * both, until it comes up a last time. No C library is needed: it runs on a bare processor, by tools/check/c-cross. */
#include "chance.h"
#include "line.h"
#include "node.h"
#include "support.h"

#include <string.h>

#define LIVES 12
#define MOST_FRAMES UINT32_C(100000)
/* More moments than a life has. */
#define FOR_GOOD UINT32_C(0xFFFFFFFF)
/* Fewer than addresses: one that was reserved is lost if its gear draws anew. */
#define MOST_GEAR 48

static uint8_t flash[PAGES][PAGE_SLOTS * SLOT_BYTES];
/* Bits that a loss of power has torn: each time they read as they like, or if the flash corrects errors, their slot is not read. */
static uint8_t torn[PAGES][PAGE_SLOTS * SLOT_BYTES];
static int is_correcting;
static struct bus bus;
static struct node node;
static struct line line;
static uint64_t chance;
/* How many moments of flash and bus are left before the power is cut; 0 once it is cut. What happens then has no effect. */
static uint32_t moments;
/* How many writes are left before the power is cut in the midst of one, if it is. */
static uint32_t writes_left;
static uint32_t cuts, frames, writes, erasures;
/* How often a survey has asked at the last address, at which no gear is, since a record was written: three times in each. */
static uint32_t surveyed;

static void must(int is_so, const char *what)
{
    if (!is_so) {
        say("wrong: ");
        say(what);
        say("\n");
        end(0);
    }
}

/* One moment passes. 2 if there is power behind it, 1 if it is cut in its midst, 0 if there is none. */
static int power(void)
{
    if (moments == 0)
        return 0;
    moments--;
    cuts += moments == 0;
    return moments > 0 ? 2 : 1;
}

int flash_read(int page, int slot, uint8_t *bytes)
{
    int is_read = 1;

    must(slot < PAGE_SLOTS, "a slot is outside of its page");
    for (int at = 0; at < SLOT_BYTES; at++) {
        uint8_t bits = torn[page][slot * SLOT_BYTES + at];

        bytes[at] = (uint8_t)(flash[page][slot * SLOT_BYTES + at] ^ (bits & chance_next(&chance)));
        is_read = is_read && !(is_correcting && bits);
    }
    if (!is_read)
        memset(bytes, 0xFF, SLOT_BYTES);
    return is_read;
}

/* Takes a byte to another one. If the power is cut, then in the midst, so that each bit was taken or not, or near the end, so that
 * hardly one was not; and some that were taken are torn. */
static void flash_change(uint8_t *from, uint8_t *bits, uint8_t to, int how, int is_near_end)
{
    uint8_t changes = (uint8_t)(*from ^ to), some = (uint8_t)(chance_next(&chance) & chance_next(&chance));

    if (how == 1)
        changes &= (uint8_t)(chance_next(&chance) | (is_near_end ? 0xFF : 0));
    *from ^= changes;
    *bits = how == 2 ? 0 : (uint8_t)(*bits | (changes & some & chance_next(&chance)));
}

/* If the power is cut meanwhile, each byte is erased, as it was, or anything between. */
int flash_erase(int page)
{
    int how = power(), is_near_end = chance_below(&chance, 2) == 0;

    for (int at = 0; how > 0 && at < PAGE_SLOTS * SLOT_BYTES; at++)
        flash_change(&flash[page][at], &torn[page][at], 0xFF, how, is_near_end);
    erasures += how == 2;
    return how == 2;
}

/* If the power is cut meanwhile, some of the bits are written. */
int flash_write(int page, int slot, const uint8_t *bytes)
{
    uint8_t *to = &flash[page][slot * SLOT_BYTES];
    int how, is_near_end = chance_below(&chance, 2) == 0;

    if (writes_left > 0 && --writes_left == 0)
        moments = moments > 1 ? 1 : moments;
    how = power();
    must(slot < PAGE_SLOTS, "a slot is outside of its page");
    for (int at = 0; how > 0 && at < SLOT_BYTES; at++) {
        must(how == 1 || to[at] == 0xFF, "a slot is written twice");
        flash_change(&to[at], &torn[page][slot * SLOT_BYTES + at], bytes[at], how, is_near_end);
    }
    writes += how == 2;
    surveyed = 0;
    return how == 2;
}

/* The first question at last is destroyed, so it is asked once more. */
void bus_put(const struct dali_order *order)
{
    must(line_put(&line, order, node.is_asking && node.asked == 1) == DALI_OK, "a port refuses a frame");
    surveyed += order->address_byte == 2 * DALI_ADDRESSES - 1 && order->opcode_byte == 0xC2;
    frames++;
}

/* The simulated gear are those of the other example, which can be killed; here nothing is. */
void stop_on_bus(void)
{
}

/* The bare loop: it waits for an interrupt, and hands to the task what the port tells. */
static void loop(void)
{
    while (node.state == NODE_ON_BUS && power() == 2) {
        struct told told = line_wait(&line, LINE_LONGEST);

        if (told.input != 0)
            node_told(&node, told.input, told.byte);
    }
}

/* Each record of an enrolment names its gear, and no two gear have one short address. */
static void check_site(const struct dali_records *records)
{
    uint32_t randoms[DALI_ADDRESSES] = {0};
    uint8_t is_held[DALI_ADDRESSES] = {0};

    for (uint32_t at = 0; at < bus.gear_count; at++) {
        uint8_t place = bus.gear[at].short_byte / 2;

        if (bus.gear[at].short_byte != GEAR_MASK) {
            must(!is_held[place], "two gear have one short address");
            is_held[place] = 1;
            randoms[place] = bus.gear[at].random_address;
        }
    }
    for (int at = 0; at < records->enrolled.count; at++) {
        const struct dali_pair *pair = &records->enrolled.pairs[at];
        uint32_t random = (uint32_t)pair->random_address.high << 16 | (uint32_t)pair->random_address.middle << 8
                          | pair->random_address.low;

        must(is_held[pair->short_address] && randoms[pair->short_address] == random, "a record names no gear");
    }
}

static int is_any_left(void)
{
    for (uint32_t at = 0; at < bus.gear_count; at++) {
        if (bus.gear[at].short_byte == GEAR_MASK)
            return 1;
    }
    return 0;
}

/* Power for so many moments, with a block of short addresses. */
static void wake(uint32_t count, uint8_t first, uint8_t last)
{
    moments = count;
    line_begin(&line, &bus);
    node_begin(&node, first, last, DALI_SURVEY);
}

/* A life, and how it ended. */
static enum node_state live(uint32_t count)
{
    struct dali_records records;

    wake(count, 0, DALI_ADDRESSES - 1);
    loop();
    must(node.frames < MOST_FRAMES, "a controller alone does not end");
    if (dali_machine_records(&node.machine, &records) == DALI_OK)
        check_site(&records);
    return node.state;
}

static void begin(uint64_t seed)
{
    chance = seed;
    bus_new(&bus, chance_next(&chance), 1 + chance_below(&chance, MOST_GEAR));
    memset(flash, 0xFF, sizeof flash);
    memset(torn, 0, sizeof torn);
    is_correcting = (int)chance_below(&chance, 2);
    memset(&node, 0, sizeof node);
}

/* A site whose controller is cut off some times, and then is not. */
static void commission(uint64_t seed)
{
    static const uint32_t most[] = {300, 20000, 300000};

    begin(seed);
    for (int life = 0; life < LIVES; life++) {
        enum node_state state;

        bus.troubles = (struct troubles){2000, 2000, 2000, 2000, 2000, 200};
        writes_left = chance_below(&chance, 2) ? 1 + chance_below(&chance, 2 * MOST_GEAR) : 0;
        state = live(1 + chance_below(&chance, most[life % 3]));
        must(moments == 0 || state == NODE_READY || state == NODE_BUS_FAILS, "a controller with power is not ready");
    }
    bus.troubles = (struct troubles){0, 0, 0, 0, 0, 0};
    writes_left = 0;
    must(live(FOR_GOOD) == NODE_READY, "a controller without troubles is not ready");
    must(surveyed >= 9, "fewer than three runs have found nothing more");
    must(!is_any_left(), "a gear is left");
}

/* The bus fails from the beginning, or once all gear have an address: no controller says that it is ready. At first it has no power. */
static void fail(uint64_t seed)
{
    static const struct troubles failures[] = {{0}, {.destroyed = MILLION}, {.lost = MILLION}, {.damaged = MILLION, .joined = MILLION}};

    begin(seed);
    for (int commissioned = 0; commissioned < 2; commissioned++) {
        for (uint32_t at = 0; at < sizeof failures / sizeof *failures; at++) {
            line.is_dead = at == 0;
            bus.troubles = failures[at];
            must(live(FOR_GOOD) == NODE_BUS_FAILS, "a controller on a bus that has failed does not say so");
        }
        bus.troubles = failures[0];
        must(live(FOR_GOOD) == NODE_READY, "a controller on a bus that works again is not ready");
        must(surveyed >= 9, "fewer than three runs have found nothing more");
    }
}

/* So many frames are lost that runs give up: no controller says that it is ready and leaves gear. */
static void lose(uint64_t seed)
{
    enum node_state state = NODE_BUS_FAILS;

    begin(seed);
    bus.troubles.lapsed = 500000;
    for (int life = 0; life < LIVES && state != NODE_READY; life++) {
        state = live(FOR_GOOD);
        must(state == NODE_BUS_FAILS || (state == NODE_READY && !is_any_left()), "a controller is ready, and a gear is left");
    }
}

/* The power is cut while the store is written anew, again and again, often in the midst of its head: no record is lost. */
static void reopen(uint64_t seed)
{
    begin(seed);
    bus.gear_count = 2;
    must(live(FOR_GOOD) == NODE_READY, "a controller without troubles is not ready");
    for (int cut = 0; cut <= 1000; cut++) {
        struct dali_records records;
        struct pages pages;
        enum pages_status status;

        moments = cut < 1000 ? 1 + chance_below(&chance, 9) : FOR_GOOD;
        dali_records_new(&records, 0, DALI_ADDRESSES - 1);
        status = pages_open(&pages, &records);
        must(status == PAGES_OPEN || (status == PAGES_FAILED && moments == 0), "a store whose power was cut is not one");
        must(records.enrolled.count == 2 && records.reserved.count == 2, "a record is lost");
    }
}

/* However long the runs take, a controller ends. */
static void bound(uint64_t seed)
{
    begin(seed);
    wake(FOR_GOOD, 0, DALI_ADDRESSES - 1);
    node.frames = NODE_MOST_FRAMES - 10;
    loop();
    must(node.state == NODE_BUS_FAILS && node.frames == NODE_MOST_FRAMES + 1, "the runs have no bound");
}

/* All gear have addresses from another controller, so that a survey hears none once it has enrolled them: a controller asks them. */
static void find(uint64_t seed)
{
    begin(seed);
    for (uint32_t at = 0; at < bus.gear_count; at++) {
        bus.gear[at].random_address = 3 * at;
        bus.gear[at].short_byte = (uint8_t)(2 * at + 1);
    }
    must(live(FOR_GOOD) == NODE_READY && node.asked == 2, "a controller does not ask gear that a survey does not");
}

/* Every address of the block is another gear's: a controller says so. */
static void fill(uint64_t seed)
{
    begin(seed);
    bus.gear_count = 2;
    wake(FOR_GOOD, 5, 5);
    loop();
    must(node.state == NODE_BLOCK_FULL && is_any_left(), "a block that is full is not said to be");
}

int main(void)
{
    for (uint32_t run = 0; run < COMMISSIONINGS; run++) {
        commission(SEED + run);
        fail(SEED + run);
        lose(SEED + run);
        find(SEED + run);
        reopen(SEED + run);
    }
    bound(SEED);
    fill(SEED);
    say("frames");
    say_number(frames);
    say("\nwrites");
    say_number(writes);
    say("\nerasures");
    say_number(erasures);
    say("\ncuts");
    say_number(cuts);
    say("\n");
    return 1;
}
