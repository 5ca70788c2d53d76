/* A bus at a resolution of 1 us: ports at their pins by examples/c/pins.c, gear that read with dali_receiver, senders that detect
 * nothing, noise, and losses of power. tools/check/port says what is tried.
 *
 *     bus frames COUNT SEED | bus sites COUNT SEED [TRACES FOLDER] */
#include "pins.h"
#include "gear.c"

#include <stdio.h>
#include <stdlib.h>

#define PORTS 4
#define FOREIGN 2
#define EVENTS 65536
#define TAKEN 16
#define NEVER UINT64_MAX
/* Those of a port: a half bit, and for how long its level and that of the bus may differ. */
#define HALF_BIT 417
#define APART 40

typedef uint64_t moment;

enum kind { SEEN, INTERRUPT, DRIVEN, TURNED, TOGGLE, REST, ORDER, BUTTON, NOISE, POWER, DRAW };

struct event {
    moment at;
    uint32_t order, stamp;
    uint16_t kind, who, value;
};

/* Whoever sees the bus: its clock, and how late it sees each edge. */
struct view {
    int32_t ppm;
    uint32_t offset;
    uint32_t rise, fall, jitter;
    moment pending;
    uint8_t pending_low, is_pending;
    uint32_t stamp;
};

struct taken {
    moment begun;
    uint16_t frame;
};

struct reader {
    struct view view;
    struct dali_receiver receiver;
    moment last;
    struct taken taken[TAKEN];
    uint32_t count;
    moment half_at;
    /* Its last answer. */
    moment answered;
    uint8_t answer;
};

struct host {
    struct view view;
    struct pins pins;
    uint32_t late, length, spikes;
    /* Whether a unit changes the pin at the time that the port told, and how often it was told. */
    uint8_t has_unit;
    uint32_t plans;
    moment free_at;
    uint32_t captured;
    uint8_t is_captured, has_overrun, sees_low, drives_low, pin_low, is_up;
    /* The frame under way: when it was handed in, and when it began. */
    struct dali_order order;
    uint8_t is_busy, is_begun;
    moment handed, begun, ended_pair;
    uint8_t last_input;
    /* Whether an interrupt came too late since it began, and whether it is to be told as destroyed. */
    uint8_t was_late, must_tell;
    /* Of a site. */
    struct dali_machine machine;
    struct dali_records records;
    struct dali_passes passes;
    uint8_t first, last, is_done, starts;
    uint32_t lives;
    moment dies;
};

struct on_air {
    moment begun;
    uint16_t frame;
    uint8_t is_16;
};

static struct event heap[EVENTS];
static uint32_t heaped, ordered;
static moment now;
static uint64_t chance;
static uint32_t lows;
static moment bus_changed;
static uint32_t rest_stamp;
static struct host hosts[PORTS];
static struct reader readers[BUS_MOST_GEAR];
static struct bus site;
static uint32_t drawn[BUS_MOST_GEAR];
static uint32_t ports, gear;
static struct on_air sent[64];
static uint32_t sent_count;
static uint64_t wrongs, told[16], garbled, frames_told, reads, edges_total, lost_total, spiked;
static int is_site, is_loud, is_noisy, is_spiked, is_joined, has_buttons, loses_power;

static FILE *trace;
static uint32_t trial;


static uint32_t below(uint32_t limit)
{
    return limit ? chance_below(&chance, limit) : 0;
}

static void wrong(const char *what, uint32_t who, uint32_t frame)
{
    if (wrongs++ < 20)
        printf("wrong: %s: trial %u, at %llu us, who %u, frame %04X\n", what, trial, (unsigned long long)now, who, frame);
}

/* Events. */

static int is_before(const struct event *a, const struct event *b)
{
    return a->at != b->at ? a->at < b->at : a->order < b->order;
}

static void plan(moment at, enum kind kind, uint32_t who, uint32_t value, uint32_t stamp)
{
    struct event it = {at, ordered++, stamp, (uint16_t)kind, (uint16_t)who, (uint16_t)value};
    uint32_t place = heaped++;

    if (heaped >= EVENTS) {
        printf("wrong: too many events\n");
        exit(1);
    }
    for (; place > 0 && is_before(&it, &heap[(place - 1) / 2]); place = (place - 1) / 2)
        heap[place] = heap[(place - 1) / 2];
    heap[place] = it;
}

static struct event next_event(void)
{
    struct event first = heap[0], last = heap[--heaped];
    uint32_t place = 0, child;

    while ((child = 2 * place + 1) < heaped) {
        child += child + 1 < heaped && is_before(&heap[child + 1], &heap[child]);
        if (!is_before(&heap[child], &last))
            break;
        heap[place] = heap[child];
        place = child;
    }
    heap[place] = last;
    return first;
}

/* Clocks. */

static uint32_t local(const struct view *view, moment at)
{
    return (uint32_t)(view->offset + at + (moment)((int64_t)at * view->ppm / 1000000));
}

static moment real(const struct view *view, uint32_t at)
{
    int32_t left = (int32_t)(at - local(view, now));
    moment when = now;

    if (left > 40)
        when += (moment)((int64_t)left * 1000000 / (1000000 + view->ppm) - 30);
    while ((int32_t)(at - local(view, when)) > 0)
        when++;
    return when;
}

/* The bus. */

static void gear_flush(uint32_t at);

static void gear_sees(uint32_t at, int is_low)
{
    struct reader *it = &readers[at];
    moment seen = now + (is_low ? it->view.fall : it->view.rise) + below(it->view.jitter + 1);

    if (it->view.is_pending && seen <= it->view.pending) {
        it->view.is_pending = 0;
        return;
    }
    gear_flush(at);
    it->view.is_pending = 1;
    it->view.pending = seen;
    it->view.pending_low = (uint8_t)is_low;
}

static void host_sees(uint32_t at, int is_low)
{
    struct view *view = &hosts[at].view;
    moment seen = now + (is_low ? view->fall : view->rise) + below(view->jitter + 1);

    view->stamp += view->is_pending && seen <= view->pending;
    if (view->is_pending && seen <= view->pending) {
        view->is_pending = 0;
        return;
    }
    view->is_pending = 1;
    view->pending = seen;
    plan(seen, SEEN, at, (uint32_t)is_low, view->stamp);
}

static void changed(int is_low)
{
    bus_changed = now;
    if (trace)
        fprintf(trace, "#%llu\n%d!\n", (unsigned long long)now, !is_low);
    for (uint32_t at = 0; at < gear; at++)
        gear_sees(at, is_low);
    for (uint32_t at = 0; at < ports; at++) {
        if (hosts[at].is_up)
            host_sees(at, is_low);
    }
    if (!is_low)
        plan(now + 2520, REST, 0, 0, ++rest_stamp);
    else
        rest_stamp++;
}

static void pull(int is_low)
{
    if (is_low ? lows++ == 0 : --lows == 0)
        changed(is_low);
}

/* The levels of a frame of so many bits, from a moment on, with half bits of so many us. */
static moment send_bits(moment from, uint32_t number, uint32_t bits, uint32_t half)
{
    int is_low = 0;

    for (uint32_t at = 0; at < 2 * (bits + 1); at++) {
        uint32_t place = bits - at / 2;
        int one = place == bits ? 1 : (int)(number >> place & 1);
        int low = at % 2 == 0 ? one : !one;

        if (low != is_low)
            plan(from + at * half, TOGGLE, 0, (uint32_t)low, 0);
        is_low = low;
    }
    if (is_low)
        plan(from + 2 * (bits + 1) * half, TOGGLE, 0, 0, 0);
    return from + 2 * (bits + 1) * half;
}

static void note_sent(moment begun, uint32_t frame, int is_16)
{
    sent[sent_count++ % 64] = (struct on_air){begun, (uint16_t)frame, (uint8_t)is_16};
}

/* Gear. */

static int answer_of(uint32_t at, uint16_t frame)
{
    uint64_t hash = frame * UINT64_C(0x9E3779B97F4A7C15) + at % 3;

    if (is_site)
        return gear_take(&site.gear[at], &site, (uint8_t)(frame >> 8), (uint8_t)frame);
    if ((frame & 3) != 3)
        return NO_ANSWER;
    return chance_next(&hash) % 5 == 0 ? (int)(chance_next(&hash) & 0xFF) : NO_ANSWER;
}

static int was_sent(uint16_t frame, moment begun)
{
    for (uint32_t at = 0; at < 64 && at < sent_count; at++) {
        if (sent[at].is_16 && sent[at].frame == frame && begun + 300 >= sent[at].begun && sent[at].begun + 300 >= begun)
            return 1;
    }
    return 0;
}

/* Whether a sender whose interrupts come too late began then, and told that its frame was destroyed, or has still to. */
static int is_destroyed(moment begun)
{
    for (uint32_t at = 0; at < ports; at++) {
        struct host *it = &hosts[at];

        if (it->was_late && it->begun + 300 >= begun && begun + 300 >= it->begun) {
            it->must_tell |= it->is_busy && it->is_begun;
            return it->must_tell || it->last_input == DALI_DESTROYED;
        }
    }
    return 0;
}

static void gear_told(uint32_t at, const struct dali_told *frame, moment last)
{
    struct reader *it = &readers[at];
    uint32_t lasted = frame->lasted[0] | (uint32_t)frame->lasted[1] << 8 | (uint32_t)frame->lasted[2] << 16;
    uint16_t bits = (uint16_t)(frame->bytes[0] << 8 | frame->bytes[1]);
    int answer;

    if (frame->kind != DALI_FORWARD_FRAME)
        return;
    it->taken[it->count++ % TAKEN] = (struct taken){last - lasted, bits};
    if (!was_sent(bits, last - lasted)) {
        if (is_destroyed(last - lasted))
            garbled++;
        else
            wrong("a gear took a frame that no one sent", at, bits);
    }
    if (is_site && site.gear[at].half_address && last - it->half_at > 100000)
        site.gear[at].half_address = 0;
    it->half_at = last - lasted;
    if (is_site && bits == 0xA700) {
        uint32_t was = site.gear[at].random_address;

        answer = answer_of(at, bits);
        if (site.gear[at].random_address != was) { /* it takes some time */
            drawn[at] = site.gear[at].random_address;
            site.gear[at].random_address = was;
            plan(now + below(97000), DRAW, at, 0, 0);
        }
        return;
    }
    answer = answer_of(at, bits);
    if (answer != NO_ANSWER) {
        moment from = last + 5500 + below(5000);

        it->answered = last - lasted;
        it->answer = (uint8_t)answer;
        /* It is told 2,400 us after its last edge. */
        send_bits(from, (uint32_t)answer, 8, 417 + below(17) - 8);
    }
}

static void gear_flush(uint32_t at)
{
    struct reader *it = &readers[at];
    struct dali_told frame;
    moment since;

    if (!it->view.is_pending)
        return;
    it->view.is_pending = 0;
    since = it->view.pending - it->last;
    since = since + (moment)((int64_t)since * it->view.ppm / 1000000);
    dali_receiver_edge(&it->receiver, it->view.pending_low, since > UINT32_MAX ? UINT32_MAX : (uint32_t)since, &frame);
    if (frame.kind != DALI_NO_FRAME)
        gear_told(at, &frame, it->last);
    it->last = it->view.pending;
}

static void gear_rest(void)
{
    for (uint32_t at = 0; at < gear; at++) {
        struct dali_told frame;
        moment since;

        gear_flush(at);
        since = now - readers[at].last;
        since = since + (moment)((int64_t)since * readers[at].view.ppm / 1000000);
        dali_receiver_time(&readers[at].receiver, since > UINT32_MAX ? UINT32_MAX : (uint32_t)since, &frame);
        if (frame.kind != DALI_NO_FRAME)
            gear_told(at, &frame, readers[at].last);
    }
}

/* What the port of a host calls. */

static struct host *host_of(struct pins *pins)
{
    for (uint32_t at = 0; at < ports; at++) {
        if (pins == &hosts[at].pins)
            return &hosts[at];
    }
    abort();
}

uint32_t pins_clock(struct pins *pins)
{
    return local(&host_of(pins)->view, now);
}

uint8_t pins_level(struct pins *pins)
{
    return host_of(pins)->sees_low;
}

int pins_captured(struct pins *pins, uint32_t *time)
{
    struct host *it = host_of(pins);
    int is_captured = it->has_overrun ? -1 : it->is_captured;

    *time = it->captured;
    lost_total += it->has_overrun;
    it->is_captured = it->has_overrun = 0;
    return is_captured;
}

static uint32_t lateness(struct host *it)
{
    uint32_t late = below(it->late + 1);

    if (it->spikes && below(it->spikes) == 0) {
        spiked++;
        it->was_late = 1;
        late += below(3000);
    }
    return late;
}

/* A second sender joins a frame that begins, level by level, and detects nothing. It makes lows longer, as much as the port may see at most: it
 * begins each so much earlier as the port sees falls late, and ends it so late that the port sees it at the edge of what it takes. */
static void join(struct host *it)
{
    uint32_t begun = local(&it->view, now), number = 0x10000u | (uint32_t)(it->order.address_byte << 8 | it->order.opcode_byte);
    int is_low = 0;

    for (uint32_t at = 0; at < 35; at++) {
        uint32_t bit = at < 34 ? number >> (16 - at / 2) & 1 : 0, half = begun + at * HALF_BIT, lasts = below(4) ? APART : 30 + below(11);
        int low = at < 34 && (at % 2 == 0 ? bit : !bit);

        if (low != is_low && low)
            plan(real(&it->view, half) - (at > 0 ? it->view.fall : 0), TOGGLE, 0, 1, 0);
        if (low != is_low && !low)
            plan(real(&it->view, half + lasts) - it->view.rise, TOGGLE, 0, 0, 0);
        is_low = low;
    }
}

void pins_drive(struct pins *pins, uint8_t is_low, uint32_t at)
{
    struct host *it = host_of(pins);
    uint32_t who = (uint32_t)(it - hosts);

    it->free_at = now + it->length;
    /* The unit has changed it already: a level whose time is past is not driven any more. */
    if (it->has_unit && real(&it->view, at) <= it->free_at)
        is_low = pins->event.next;
    if (is_low && it->is_busy && !it->is_begun) {
        it->is_begun = 1;
        it->was_late = 0;
        it->begun = now + it->length;
        note_sent(it->begun, (uint32_t)(it->order.address_byte << 8 | it->order.opcode_byte), 1);
        if (it->ended_pair && now - it->ended_pair < 99000)
            wrong("a frame within 100 ms after a pair of RANDOMISE", who, it->order.opcode_byte);
        if (is_joined && below(2))
            join(it);
    }
    if (is_low != it->drives_low) {
        it->drives_low = is_low;
        plan(it->free_at, DRIVEN, who, is_low, it->lives);
    }
    {
        moment due = real(&it->view, at);

        it->plans++;
        if (it->has_unit && pins->event.next != is_low && due > it->free_at && due < now + 10000000)
            plan(due, TURNED, who, pins->event.next, it->plans);

        /* What is due in minutes is the clock alone. */
        if (due < now + 10000000)
            plan((due > it->free_at ? due : it->free_at) + 1 + lateness(it), INTERRUPT, who, 0, it->lives);
    }
}

static uint16_t frame_of(const struct host *it)
{
    return (uint16_t)(it->order.address_byte << 8 | it->order.opcode_byte);
}

/* A frame was told as whole: each gear took it, and what was heard is what gear sent. */
static void check_whole(struct host *it, const struct dali_event *event)
{
    uint32_t who = (uint32_t)(it - hosts), answers = 0, others = 0;
    uint16_t frame = frame_of(it);

    if (!it->is_begun) {
        wrong("a frame that was not begun is told as whole", who, frame);
        return;
    }
    for (uint32_t at = 0; at < gear; at++) {
        struct reader *reader = &readers[at];
        int took = 0;

        for (uint32_t place = 0; place < TAKEN && place < reader->count; place++)
            took |= reader->taken[place].frame == frame && reader->taken[place].begun + 300 >= it->begun
                    && it->begun + 300 >= reader->taken[place].begun;
        if (!took)
            wrong("a frame is told as whole, and a gear did not take it", at, frame);
        if (reader->answered + 300 >= it->begun && it->begun + 300 >= reader->answered) {
            answers++;
            others += event->input == DALI_HEARD_BYTE && reader->answer != event->byte;
        }
    }
    if (event->input == DALI_HEARD_SILENCE && answers > 0)
        wrong("silence is told, and a gear answered", who, frame);
    if (event->input == DALI_HEARD_BYTE && (answers == 0 || others > 0))
        wrong("a byte is told that not all gear sent", who, frame);
}

static void order_more(struct host *it, uint8_t byte);

void pins_tell(struct pins *pins, const struct dali_event *event)
{
    struct host *it = host_of(pins);

    reads += event->read.kind != DALI_NO_FRAME;
    if (event->input == 0)
        return;
    if (it->must_tell && event->input != DALI_DESTROYED)
        wrong("a frame that gear took otherwise is not told as destroyed", (uint32_t)(it - hosts), frame_of(it));
    it->must_tell = 0;
    told[event->input]++;
    frames_told++;
    if (!it->is_busy)
        wrong("a word without a frame", (uint32_t)(it - hosts), 0);
    if (event->input == DALI_LAPSED && it->is_begun)
        wrong("a frame that was begun is told as lapsed", (uint32_t)(it - hosts), frame_of(it));
    if (event->input <= DALI_HEARD_DAMAGED)
        check_whole(it, event);
    if (frame_of(it) == 0xA700 && it->order.half == DALI_SECOND_HALF && event->input <= DALI_HEARD_DAMAGED)
        it->ended_pair = it->begun + 14000;
    it->last_input = event->input;
    it->is_busy = 0;
    order_more(it, event->byte);
}

static void hand_in(struct host *it, uint32_t drawn)
{
    uint8_t status;

    it->is_busy = 1;
    it->is_begun = 0;
    it->handed = now;
    status = pins_send(&it->pins, &it->order, drawn);
    if (status != DALI_OK) {
        printf("wrong: a frame is refused by status %u\n", status);
        wrongs++;
        it->is_busy = 0;
    }
}

/* Frames: each port is handed frames that are drawn. */

static void order_more(struct host *it, uint8_t byte)
{
    uint32_t wait = below(4) ? below(3000) : below(60000);

    if (is_site)
        wait = below(1000);
    plan(now + it->length + 1 + wait, ORDER, (uint32_t)(it - hosts), byte, it->lives);
}

static uint32_t most_drawn(uint32_t priority)
{
    return priority <= 2 ? 1200 : priority <= 4 ? 1400 : 1600;
}

static void order_drawn(struct host *it)
{
    struct dali_order *order = &it->order;
    int goes_on = it->last_input != 0 && it->last_input <= DALI_HEARD_DAMAGED && below(3) > 0;
    int second = goes_on && order->half == DALI_FIRST_HALF;
    static const uint16_t alike[] = {0xA900, 0xFF03, 0x0103, 0xA700};
    uint16_t frame = below(2) ? alike[below(4)] : (uint16_t)below(65536);

    if (!second) {
        order->address_byte = (uint8_t)(frame >> 8);
        order->opcode_byte = (uint8_t)frame;
    }
    order->kind = DALI_PUT;
    order->priority = (uint8_t)(goes_on ? 1 : 2 + below(4));
    order->half = second ? DALI_SECOND_HALF : frame == 0xA700 || below(8) == 0 ? DALI_FIRST_HALF : DALI_WHOLE;
    order->asks = (order->opcode_byte & 3) == 3;
    hand_in(it, below(most_drawn(order->priority) + 1));
}

/* Sites: each port has a machine, which is told what became of its frame. */

static void site_step(struct host *it, uint8_t input, uint8_t byte);

static void dispatch(struct event event)
{
    struct host *it = &hosts[event.who];

    switch ((enum kind)event.kind) {
    case SEEN:
        if (!it->is_up || it->view.stamp != event.stamp)
            break;
        if (it->view.pending == now)
            it->view.is_pending = 0;
        it->sees_low = (uint8_t)event.value;
        it->has_overrun |= it->is_captured;
        it->is_captured = 1;
        it->captured = local(&it->view, now);
        edges_total++;
        plan((it->free_at > now ? it->free_at : now) + 1 + lateness(it), INTERRUPT, event.who, 0, it->lives);
        break;
    case INTERRUPT:
        if (!it->is_up || event.stamp != it->lives)
            break;
        if (now < it->free_at)
            plan(it->free_at + 1, INTERRUPT, event.who, 0, it->lives);
        else
            pins_interrupt(&it->pins);
        break;
    case DRIVEN:
        if (it->is_up && event.stamp == it->lives && it->pin_low != event.value) {
            it->pin_low = (uint8_t)event.value;
            pull(event.value);
        }
        break;
    case TURNED:
        if (it->is_up && event.stamp == it->plans) {
            it->drives_low = (uint8_t)event.value;
            if (it->pin_low != event.value) {
                it->pin_low = (uint8_t)event.value;
                pull(event.value);
            }
        }
        break;
    case TOGGLE:
        pull(event.value);
        break;
    case REST:
        if (event.stamp == rest_stamp)
            gear_rest();
        break;
    case ORDER:
        if (!it->is_up || event.stamp != it->lives)
            break;
        if (now < it->free_at)
            plan(it->free_at + 1, ORDER, event.who, event.value, it->lives);
        else if (is_site)
            site_step(it, it->last_input, (uint8_t)event.value);
        else
            order_drawn(it);
        break;
    case BUTTON: {
        uint32_t bits = below(4) ? 16 : 24, number = below(1u << bits);

        if (is_site) /* no command that changes addressing: direct arc power */
            number &= bits == 16 ? 0x7EFF : 0xFFFFFF;
        if (lows == 0 && (is_loud || now - bus_changed > 13000)) {
            note_sent(now, number, bits == 16);
            send_bits(now, number, bits, 367 + below(101));
        }
        if (has_buttons)
            plan(now + 20000 + below(200000), BUTTON, 0, 0, 0);
        break;
    }
    case NOISE: {
        uint32_t count = below(8) ? 1 : 1 + below(30), at = 0;

        for (uint32_t each = 0; each < count; each++) {
            uint32_t lasts = 30 + below(below(3) ? 60 : 400);

            plan(now + at, TOGGLE, 0, 1, 0);
            plan(now + at + lasts, TOGGLE, 0, 0, 0);
            at += lasts + 30 + below(below(2) ? 30 : 1000);
        }
        if (is_noisy)
            plan(now + at + 10000 + below(300000), NOISE, 0, 0, 0);
        break;
    }
    case POWER: {
        uint32_t lasts = below(2) ? below(60000) : 400000 + below(400000);

        plan(now, TOGGLE, 0, 1, 0);
        plan(now + lasts + 1, TOGGLE, 0, 0, 0);
        plan(now + lasts + 300000 + below(2000000), POWER, 0, 0, 0);
        break;
    }
    case DRAW:
        site.gear[event.who].random_address = drawn[event.who];
        break;
    }
}

/* Up to so many; one in four is at an edge of that, and each if a second sender joins frames. */
static uint32_t up_to(uint32_t most)
{
    return !is_joined && below(4) ? below(most + 1) : below(2) * most;
}

static struct view view_drawn(void)
{
    int32_t parts = (int32_t)up_to(2000 * CLOCK) - 1000 * CLOCK;
    struct view view = {parts, (uint32_t)chance_next(&chance), 0, 0, 0, 0, 0, 0, 0};

    view.jitter = is_joined ? 0 : below(3);
    view.rise = up_to(DIFFER - view.jitter);
    view.fall = up_to(DIFFER - view.jitter);
    return view;
}

static void reset(uint32_t port_count, uint32_t gear_count)
{
    heaped = ordered = lows = sent_count = 0;
    now = 1000;
    bus_changed = 0;
    rest_stamp++;
    ports = port_count;
    gear = gear_count;
    memset(hosts, 0, sizeof hosts);
    memset(readers, 0, sizeof readers);
    for (uint32_t at = 0; at < gear; at++) {
        readers[at].view = view_drawn();
        dali_receiver_new(&readers[at].receiver);
    }
}

static void host_up(struct host *it, moment when)
{
    (void)when;
    it->view = view_drawn();
    it->late = below(6);
    it->length = 1 + below(6);
    it->has_unit = below(2) == 0;
    it->spikes = is_spiked ? 20 + below(2000) : 0;
    it->is_up = 1;
    it->sees_low = lows > 0;
    it->lives++;
    pins_begin(&it->pins);
}

static void run_until(moment end)
{
    while (heaped > 0 && heap[0].at <= end) {
        struct event event = next_event();

        now = event.at;
        dispatch(event);
    }
    now = end;
}

/* One trial: some ports and gear, for some seconds. */
static void try_frames(uint64_t seed)
{
    moment end;

    chance = seed;
    is_loud = below(3) == 0;
    is_noisy = below(4) == 0 && !getenv("NO_NOISE");
    is_spiked = below(4) == 0 && !getenv("NO_SPIKES");
    has_buttons = below(3) == 0 && !getenv("NO_BUTTONS");
    loses_power = below(8) == 0 && !getenv("NO_POWER");
    is_joined = below(4) == 0 && !getenv("NO_JOINED");
    if (is_joined)
        is_loud = is_noisy = is_spiked = has_buttons = loses_power = 0;
    reset(1 + below(PORTS), below(4) ? 1 + below(6) : 1 + below(BUS_MOST_GEAR));
    for (uint32_t at = 0; at < ports; at++) {
        host_up(&hosts[at], 0);
        plan(now + 1 + below(20000), ORDER, at, 0, hosts[at].lives);
    }
    if (has_buttons)
        plan(now + below(100000), BUTTON, 0, 0, 0);
    if (is_noisy)
        plan(now + below(100000), NOISE, 0, 0, 0);
    if (loses_power)
        plan(now + below(1000000), POWER, 0, 0, 0);
    for (end = now; end < 10000000 && heaped > 0; end += 100000) {
        run_until(end);
        for (uint32_t at = 0; at < ports; at++) {
            if (hosts[at].is_busy && now - hosts[at].handed > 1000000 && now - bus_changed > 700000)
                wrong("a frame has no word", at, frame_of(&hosts[at]));
        }
    }
}

/* A site: two to four controllers with a block each, which are killed and come up again with the records that they kept. */

static void site_up(struct host *it)
{
    host_up(it, now);
    it->is_busy = it->is_done = 0;
    it->last_input = it->starts && below(2) ? DALI_START : DALI_SURVEY;
    if (dali_machine_new(&it->machine, &it->records) != DALI_OK)
        wrong("the records of a controller are refused", (uint32_t)(it - hosts), 0);
    dali_passes_new(&it->passes);
    plan(now + 10 + below(100000), ORDER, (uint32_t)(it - hosts), 0, it->lives);
}

static void site_down(struct host *it)
{
    struct view *view = &it->view;

    if (it->pin_low)
        pull(0);
    it->pin_low = it->drives_low = it->is_up = it->is_captured = it->has_overrun = 0;
    it->lives++;
    view->is_pending = 0;
    view->stamp++;
}

static void site_step(struct host *it, uint8_t input, uint8_t byte)
{
    uint8_t next;
    uint32_t who = (uint32_t)(it - hosts);

    for (;;) {
        if (dali_machine_step(&it->machine, input, byte, &it->order) != DALI_OK
            || dali_passes_step(&it->passes, input, &it->order, &next) != DALI_OK) {
            wrong("a step is refused", who, input);
            it->is_done = 1;
            return;
        }
        if (it->order.kind == DALI_PUT) {
            hand_in(it, below(1201));
            return;
        }
        if (it->order.kind == DALI_COMMIT) {
            if (dali_records_add(&it->records, &it->order.record) != DALI_OK)
                wrong("a record is refused", who, it->order.record.kind);
            it->last_input = DALI_COMMITTED;
            plan(now + 10 + below(20000), ORDER, who, 0, it->lives);
            return;
        }
        if (next != DALI_NEXT_RUN) {
            it->is_done = next == DALI_NEXT_READY || next == DALI_NEXT_ASK ? 1 : 2;
            return;
        }
        dali_machine_new(&it->machine, &it->records);
        input = DALI_SURVEY;
    }
}

static uint32_t is_left(void)
{
    uint32_t left = 0;

    for (uint32_t at = 0; at < gear; at++)
        left += site.gear[at].short_byte == GEAR_MASK;
    return left;
}

static void check_site(void)
{
    for (uint32_t at = 0; at < gear; at++) {
        for (uint32_t other = 0; other < at; other++) {
            if (site.gear[at].short_byte != GEAR_MASK && site.gear[at].short_byte == site.gear[other].short_byte)
                wrong("two gear have one short address", at, site.gear[at].short_byte);
        }
    }
}

/* Runs until all controllers are done; those that end otherwise than ready begin again. */
static int site_runs(int kills, moment end)
{
    while (now < end) {
        int is_done = 1;

        run_until(now + 1000000);
        check_site();
        for (uint32_t at = 0; at < ports; at++) {
            struct host *it = &hosts[at];

            if (kills && below(60) == 0) {
                site_down(it);
                run_until(now + 1000 + below(500000));
                site_up(it);
            } else if (it->is_done == 2) {
                site_down(it);
                site_up(it);
            }
            is_done &= it->is_done == 1;
        }
        if (is_done && !kills)
            return 1;
    }
    return 0;
}

static void try_site(uint64_t seed)
{
    uint32_t count, each;

    chance = seed;
    is_site = 1;
    is_loud = is_spiked = is_joined = loses_power = 0;
    is_noisy = below(4) == 0;
    has_buttons = below(3) == 0;
    reset(2 + below(PORTS - 1), 1 + below(12));
    bus_new(&site, chance_next(&chance), gear);
    count = ports;
    each = DALI_ADDRESSES / count;
    for (uint32_t at = 0; at < count; at++) {
        dali_records_new(&hosts[at].records, (uint8_t)(at * each), (uint8_t)(at * each + each - 1));
        site_up(&hosts[at]);
    }
    if (has_buttons)
        plan(now + below(100000), BUTTON, 0, 0, 0);
    if (is_noisy)
        plan(now + below(100000), NOISE, 0, 0, 0);
    site_runs(1, now + 30000000 + below(300000000));
    is_noisy = has_buttons = 0;
    if (!site_runs(0, now + 3600000000u))
        wrong("controllers do not end", 0, 0);
    if (is_left() > 0)
        wrong("gear are left", is_left(), gear);
    check_site();
}

int main(int count, char **words)
{
    uint64_t many = count > 2 ? strtoull(words[2], NULL, 10) : 1000, seed = count > 3 ? strtoull(words[3], NULL, 10) : 1;

    if (count > 1 && strcmp(words[1], "sites") == 0) {
        for (trial = 0; trial < many; trial++) {
            char name[300];

            snprintf(name, sizeof name, "%s/site%u.vcd", count > 4 ? words[4] : "", trial);
            trace = count > 4 ? fopen(name, "w") : NULL;
            if (trace)
                fprintf(trace, "$timescale 1 us $end\n$var wire 1 ! bus $end\n$enddefinitions $end\n#0\n1!\n");
            try_site((seed << 32) + trial);
            if (trace) {
                fprintf(trace, "#%llu\n", (unsigned long long)now + 100000);
                fclose(trace);
            }
        }
    } else {
        for (trial = 0; frames_told < many; trial++)
            try_frames((seed << 32) + trial);
    }
    printf("%u trials, %llu frames: silence %llu, byte %llu, damaged %llu, destroyed %llu, lapsed %llu; %llu read, %llu edges, %llu overruns, %llu late, %llu garbled\n",
           trial, (unsigned long long)frames_told, (unsigned long long)told[1], (unsigned long long)told[2], (unsigned long long)told[3],
           (unsigned long long)told[4], (unsigned long long)told[5], (unsigned long long)reads, (unsigned long long)edges_total,
           (unsigned long long)lost_total, (unsigned long long)spiked, (unsigned long long)garbled);
    printf("%llu wrong\n", (unsigned long long)wrongs);
    return wrongs != 0;
}

void stop_on_bus(void)
{
}
