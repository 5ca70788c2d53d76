#include "levels.h"
#include "chance.h"
#include "dali_c.h"

/* Times here are nanoseconds after the last edge of a forward frame; what is handed over is whole microseconds. */
#define MICRO UINT32_C(1000)
#define MILLI UINT32_C(1000000)
/* A half bit: the least and the most of a receiver, the nominal one, and the least and the most of a sender. */
#define LEAST_HALF (334 * MICRO)
#define MOST_HALF (500 * MICRO)
#define HALF UINT32_C(416667)
#define LEAST_SENT UINT32_C(366700)
#define MOST_SENT UINT32_C(466700)
/* When an answer may begin, and the most that are sent at once. */
#define FIRST_BEGIN (2400 * MICRO)
#define LAST_BEGIN (12400 * MICRO)
#define MOST_ANSWERS 3
/* More lows than they have. */
#define MOST_LOWS 96

/* Where the bus is pulled low, by when the low begins. */
struct low {
    uint32_t from;
    uint32_t to;
};

struct levels {
    uint32_t count;
    struct low lows[MOST_LOWS];
};

struct answer {
    uint32_t begin;
    uint32_t half;
    uint8_t byte;
};

static void pull(struct levels *levels, uint32_t from, uint32_t to)
{
    uint32_t at = levels->count++;

    for (; at > 0 && levels->lows[at - 1].from > from; at--)
        levels->lows[at] = levels->lows[at - 1];
    levels->lows[at] = (struct low){from, to};
}

/* A start bit, and so many bits of a number, the highest first. A bit 1 is low in its first half, a 0 in its second. */
static void send(struct levels *levels, uint32_t begin, uint32_t half, uint32_t bits, uint32_t number)
{
    pull(levels, begin, begin + half);
    for (uint32_t bit = 1; bit <= bits; bit++) {
        uint32_t from = begin + (2 * bit + !(number >> (bits - bit) & 1)) * half;

        pull(levels, from, from + half);
    }
}

/* The bus is low while any device pulls it low: lows that meet are one. */
static void join(struct levels *levels)
{
    uint32_t count = 0;

    for (uint32_t at = 0; at < levels->count; at++) {
        struct low low = levels->lows[at];

        if (count > 0 && low.from <= levels->lows[count - 1].to) {
            if (low.to > levels->lows[count - 1].to)
                levels->lows[count - 1].to = low.to;
        } else {
            levels->lows[count++] = low;
        }
    }
    levels->count = count;
}

/* When an edge is: the even ones are to low. */
static uint32_t edge_at(const struct levels *levels, uint32_t edge)
{
    const struct low *low = &levels->lows[edge / 2];

    return (edge % 2 == 0 ? low->from : low->to) / MICRO;
}

/* FNV-1a with 32 bits. */
static void mix(struct levels_seen *seen, const void *thing, uint32_t size)
{
    const uint8_t *bytes = thing;

    for (uint32_t at = 0; at < size; at++)
        seen->sum = (seen->sum ^ bytes[at]) * UINT32_C(0x01000193);
}

/* What is heard of these levels. The timer's interrupt comes first after so many microseconds, then each so many. */
static struct dali_heard heard_of(struct levels *levels, uint32_t first, uint32_t each, struct levels_seen *seen)
{
    /* The timer begins anew meanwhile. */
    uint32_t sent = UINT32_C(0xFFFFFFFF) - 9000, edge;
    struct dali_heard heard = {0, 0, 0};
    struct dali_window window;
    uint32_t last = sent;

    join(levels);
    /* Of a low from the beginning on only the end is handed over: an echo. */
    edge = levels->count > 0 && levels->lows[0].from == 0;
    dali_window_new(&window);
    for (uint32_t now = first; heard.is_over == 0; now += each) {
        for (; edge < 2 * levels->count && edge_at(levels, edge) <= now; edge++) {
            dali_window_edge(&window, edge % 2 == 0, sent + edge_at(levels, edge) - last);
            last = sent + edge_at(levels, edge);
        }
        dali_window_time(&window, sent + now - last, &heard);
    }
    seen->silences += heard.input == DALI_HEARD_SILENCE;
    seen->bytes += heard.input == DALI_HEARD_BYTE;
    seen->damaged += heard.input == DALI_HEARD_DAMAGED;
    mix(seen, &heard, sizeof heard);
    mix(seen, &window, sizeof window);
    return heard;
}

/* Whether this is heard of answers that drive the bus together. */
static int hears(const struct answer *answers, uint32_t count, uint8_t input, struct levels_seen *seen)
{
    struct levels levels = {0, {{0, 0}}};
    struct dali_heard heard;

    for (uint32_t at = 0; at < count; at++)
        send(&levels, answers[at].begin, answers[at].half, 8, answers[at].byte);
    heard = heard_of(&levels, 12401, 100, seen);
    return heard.input == input && (input != DALI_HEARD_BYTE || heard.byte == answers[0].byte);
}

static const char *try_answers(struct levels_seen *seen)
{
    static const uint32_t begins[] = {FIRST_BEGIN, 7 * MILLI, LAST_BEGIN}, halves[] = {LEAST_HALF, HALF, MOST_HALF};
    struct answer answers[] = {{0, HALF, 0}, {0, HALF, 0}, {0, HALF, 0}};

    if (!hears(answers, 0, DALI_HEARD_SILENCE, seen))
        return "nothing is no silence";
    for (uint32_t byte = 0; byte < 9 * 256; byte++) {
        struct answer alone = {begins[byte / 256 % 3], halves[byte / 768], (uint8_t)byte};

        if (!hears(&alone, 1, DALI_HEARD_BYTE, seen))
            return "a byte is not read back";
    }
    for (uint32_t pair = 0; pair < 65536; pair++) {
        uint8_t one = (uint8_t)pair, other = (uint8_t)(pair >> 8);

        answers[0] = (struct answer){6 * MILLI, HALF, one};
        answers[1] = answers[2] = (struct answer){6 * MILLI, HALF, other};
        if (!hears(answers, 3, one == other ? DALI_HEARD_BYTE : DALI_HEARD_DAMAGED, seen))
            return "joint answers are heard otherwise";
    }
    answers[0] = (struct answer){FIRST_BEGIN - MICRO, HALF, 0x0B};
    if (!hears(answers, 1, DALI_HEARD_DAMAGED, seen))
        return "an answer comes too early";
    answers[0].begin = LAST_BEGIN + MICRO;
    if (!hears(answers, 1, DALI_HEARD_DAMAGED, seen))
        return "an answer comes too late";
    answers[0] = (struct answer){FIRST_BEGIN, HALF, 0x0B};
    answers[1] = (struct answer){LAST_BEGIN - 200 * MICRO, HALF, 0x0B};
    return hears(answers, 2, DALI_HEARD_DAMAGED, seen) ? 0 : "two answers in turn are heard otherwise";
}

/* What is heard of so many lows of this length, each so long after the one before it began. */
static uint8_t lows(uint32_t count, uint32_t low, uint32_t each, struct levels_seen *seen)
{
    struct levels levels = {0, {{0, 0}}};

    for (uint32_t at = 0; at < count; at++)
        pull(&levels, 4 * MILLI + at * each, 4 * MILLI + at * each + low);
    return heard_of(&levels, 12401, 100, seen).input;
}

/* The last edge of the own frame is handed over once more, so many microseconds late, and an answer follows or not. */
static uint8_t echoed(uint32_t late, int is_answered, struct levels_seen *seen)
{
    struct levels levels = {0, {{0, 0}}};

    pull(&levels, 0, late * MICRO);
    if (is_answered)
        send(&levels, 7 * MILLI, HALF, 8, 0x0B);
    return heard_of(&levels, 12401, 100, seen).input;
}

static const char *try_echoes(struct levels_seen *seen)
{
    for (uint32_t late = 1; late < 2400; late += 22)
        if (echoed(late, 0, seen) != DALI_HEARD_SILENCE || echoed(late, 1, seen) != DALI_HEARD_BYTE)
            return "an echo is heard";
    return echoed(2400, 0, seen) == DALI_HEARD_DAMAGED && echoed(2400, 1, seen) == DALI_HEARD_DAMAGED
               ? 0
               : "a missed edge is not damaged";
}

/* Noise, a byte FF whose lows are too short, and a bus that stays low. */
static const char *try_noise(struct levels_seen *seen)
{
    if (lows(1, 99 * MICRO, 0, seen) != DALI_HEARD_SILENCE)
        return "one pulse is heard";
    if (lows(1, 100 * MICRO, 0, seen) != DALI_HEARD_DAMAGED || lows(2, 50 * MICRO, MILLI, seen) != DALI_HEARD_DAMAGED)
        return "a longer low, or two pulses, are not damaged";
    if (lows(20, 333 * MICRO, 600 * MICRO, seen) != DALI_HEARD_DAMAGED)
        return "noise is not damaged";
    if (lows(9, 330 * MICRO, 800 * MICRO, seen) != DALI_HEARD_DAMAGED)
        return "a weak answer is not damaged";
    return lows(1, 100 * MILLI, 0, seen) == DALI_HEARD_DAMAGED ? 0 : "a bus that stays low is not damaged";
}

/* What a receiver tells of a frame of so many bits. */
static struct dali_told told_of(uint32_t bits, uint32_t number, struct levels_seen *seen)
{
    struct levels levels = {0, {{0, 0}}};
    struct dali_receiver receiver;
    struct dali_told told = {DALI_DAMAGED_FRAME, {0, 0, 0}, {0, 0, 0, 0}};
    uint32_t last = 0;

    send(&levels, 20 * MILLI, HALF, bits, number);
    join(&levels);
    dali_receiver_new(&receiver);
    for (uint32_t edge = 0; edge < 2 * levels.count; edge++) {
        uint32_t now = edge_at(&levels, edge);

        dali_receiver_edge(&receiver, edge % 2 == 0, now - last, &told);
        seen->frames += told.kind != DALI_NO_FRAME;
        last = now;
    }
    dali_receiver_time(&receiver, 2399, &told);
    seen->frames += told.kind != DALI_NO_FRAME;
    dali_receiver_time(&receiver, 2400, &told);
    seen->frames += told.kind != DALI_NO_FRAME;
    mix(seen, &told, sizeof told);
    mix(seen, &receiver, sizeof receiver);
    return told;
}

/* The levels that the library sends of a forward frame are those of `send`. */
static int sends(uint32_t number, struct levels_seen *seen)
{
    struct dali_levels sent;
    struct levels levels = {0, {{0, 0}}};
    uint32_t at = 0;

    dali_levels_new(&sent, (uint8_t)(number >> 8), (uint8_t)number);
    mix(seen, &sent, sizeof sent);
    send(&levels, 0, 1, 16, number);
    for (uint32_t half = 0; half < DALI_HALVES; half++) {
        int is_low = at < levels.count && levels.lows[at].from == half;

        if (sent.is_low[half] != is_low)
            return 0;
        at += is_low;
    }
    return 1;
}

static const char *try_frames(uint64_t *chance, uint32_t rounds, struct levels_seen *seen)
{
    uint32_t count = seen->frames;

    for (uint32_t round = 0; round < rounds; round++) {
        uint32_t bits = round % 28, number = (uint32_t)chance_next(chance) & ((UINT32_C(1) << bits) - 1);
        struct dali_told told = told_of(bits, number, seen);
        uint8_t kind = bits == 8    ? DALI_BACKWARD_FRAME
                       : bits == 16 ? DALI_FORWARD_FRAME
                       : bits == 24 ? DALI_DEVICE_FRAME
                                    : DALI_DAMAGED_FRAME;
        uint32_t last = 2 * bits * HALF + (bits == 0 || number % 2 == 1 ? HALF : 2 * HALF);
        uint32_t lasted = told.lasted[0] | (uint32_t)told.lasted[1] << 8 | (uint32_t)told.lasted[2] << 16;

        if (bits == 16 && !sends(number, seen))
            return "a frame is sent otherwise";
        if (told.kind != kind || seen->frames != ++count)
            return "a frame is told otherwise, or twice";
        if (lasted != (20 * MILLI + last) / MICRO - 20000)
            return "a frame is told to last otherwise";
        for (uint32_t at = 0; at < 3; at++) {
            int is_byte = kind != DALI_DAMAGED_FRAME && 8 * at < bits;

            if (told.bytes[at] != (is_byte ? (uint8_t)(number >> (bits - 8 - 8 * at)) : 0))
                return "a frame has other bytes";
        }
    }
    return 0;
}

/* Answers off the grid of half bits, some near to each other and with one byte. */
static const char *try_drawn(uint64_t *chance, uint32_t rounds, struct levels_seen *seen)
{
    for (uint32_t round = 0; round < rounds; round++) {
        uint32_t count = 1 + chance_below(chance, MOST_ANSWERS), near = chance_below(chance, 2), all_sent = 1;
        uint32_t common = FIRST_BEGIN + chance_below(chance, near ? 9 * MILLI : MILLI);
        uint8_t bytes[] = {(uint8_t)chance_next(chance), 0xFF};
        struct levels levels = {0, {{0, 0}}};
        struct dali_heard heard;
        uint32_t first = 1 + chance_below(chance, 13000), each = 1 + chance_below(chance, 400);

        for (uint32_t at = 0; at < count; at++) {
            uint32_t begin = common + chance_below(chance, near ? 100 * MICRO : 9 * MILLI);

            bytes[1] = at == 0 || chance_below(chance, 2) ? bytes[0] : (uint8_t)chance_next(chance);
            all_sent = all_sent && bytes[1] == bytes[0];
            send(&levels, begin, LEAST_SENT + chance_below(chance, MOST_SENT - LEAST_SENT), 8, bytes[1]);
        }
        heard = heard_of(&levels, first, each, seen);
        if (heard.input == DALI_HEARD_BYTE && (!all_sent || heard.byte != bytes[0]))
            return "a byte is told that not each of them sent";
        if (heard.input == DALI_HEARD_SILENCE || (count == 1 && heard.input != DALI_HEARD_BYTE))
            return "an answer is lost";
    }
    return 0;
}

const char *levels_try(uint64_t seed, uint32_t rounds, struct levels_seen *seen)
{
    uint64_t chance = seed;
    const char *wrong;

    *seen = (struct levels_seen){0, 0, 0, 0, UINT32_C(0x811C9DC5)};
    wrong = try_answers(seen);
    wrong = wrong ? wrong : try_echoes(seen);
    wrong = wrong ? wrong : try_noise(seen);
    wrong = wrong ? wrong : try_frames(&chance, rounds, seen);
    return wrong ? wrong : try_drawn(&chance, rounds, seen);
}
