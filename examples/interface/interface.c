/* What the driver's lines ask for, and the answers: docs/INTERFACE.md has the lines. Nothing here knows a board. */
#include "interface.h"
#include "ring.h"
#include "text.h"

/* How long a line may take from its word to its answer; after which time without a byte it is cut off; and how long gear draw, in
 * which no frame is sent, as a port that begins anew does not know of a RANDOMISE before. */
#define PATIENCE UINT32_C(2000000)
#define GAP UINT32_C(200000)
#define DRAW UINT32_C(100000)
/* The longest line. */
#define LONGEST 48

enum phase {
    /* No line waits for its answer. */
    AT_REST,
    /* The first frame of a pair is the port's, and the second one waits for it; */
    FIRST_ON_BUS,
    /* a frame is the port's, whose word is the answer; */
    LAST_ON_BUS,
    /* or the port began anew, and gear may draw. */
    RELEASED
};

static struct ring received, sent;
static volatile uint8_t told, told_byte;

/* The line that comes in, how much of it, when its last byte came, and whether it is too long. */
static char line[LONGEST + 1];
static uint8_t count, is_long;
static uint32_t came;

/* The session: its number, if there is one, and the number of its next line. A new one waits for its answer if it was asked for. */
static uint32_t session;
static uint8_t has_session, number, is_asked;

static enum phase phase;
/* When the line was taken that waits for its answer, or the port began anew. */
static uint32_t since;
/* The frame of that line; and the first frame of a pair, which is held back. */
static struct dali_order order, first;
static uint8_t has_first;

/* Called in interrupts. */

void interface_told(uint8_t input, uint8_t byte)
{
    told_byte = byte;
    told = input;
}

void interface_received(uint8_t byte)
{
    ring_put(&received, byte);
}

int interface_next(void)
{
    return ring_take(&sent);
}

/* What is said. */

/* Says a line with its sum. A message finds no room once half of it is taken, so that answers do. */
static void say(struct text *text, uint32_t room)
{
    text_end(text);
    if (ring_room(&sent) < room)
        return;
    for (uint8_t at = 0; at < text->count; at++)
        ring_put(&sent, (uint8_t)text->bytes[at]);
    board_say();
}

static void say_message(const char *word, const char *why)
{
    struct text text = {0, {0}};

    text_word(&text, word);
    text_word(&text, why);
    say(&text, RING_BYTES / 2);
}

static void refuse(const char *why)
{
    say_message("refused", why);
}

static void answer(uint8_t input, uint8_t byte)
{
    static const char *const words[] = {"", "silence", "byte", "damaged", "destroyed", "lapsed"};
    struct text text = {0, {0}};

    text_number(&text, session, 8);
    text_number(&text, number, 2);
    text_word(&text, words[input]);
    if (input == DALI_HEARD_BYTE)
        text_number(&text, byte, 2);
    say(&text, LONGEST);
}

static void say_begun(void)
{
    struct text text = {0, {0}};

    text_word(&text, "begun");
    text_number(&text, session, 8);
    text_number(&text, INTERFACE_VERSION, 2);
    say(&text, LONGEST);
}

/* What is done. */

static void release(void)
{
    board_release();
    phase = RELEASED;
    since = board_clock();
}

/* The line has its answer, if its session goes on. */
static void finish(uint8_t input, uint8_t byte)
{
    phase = AT_REST;
    if (is_asked)
        say_begun();
    else if (has_session)
        answer(input, byte);
    is_asked = 0;
}

static void send(const struct dali_order *frame, enum phase then)
{
    told = 0;
    phase = then;
    if (board_send(frame) != DALI_OK)
        interface_told(DALI_LAPSED, 0);
}

/* The port has told this. The second frame of a pair follows a first one that was sent whole, if its session goes on. */
static void take_word(uint8_t input, uint8_t byte)
{
    if (phase == FIRST_ON_BUS && input <= DALI_HEARD_DAMAGED && !is_asked)
        send(&order, LAST_ON_BUS);
    else if (phase == FIRST_ON_BUS || phase == LAST_ON_BUS)
        finish(input, byte);
}

static int is_second_of(const struct dali_order *one, const struct dali_order *other)
{
    return one->half == DALI_FIRST_HALF && other->half == DALI_SECOND_HALF && one->address_byte == other->address_byte
           && one->opcode_byte == other->opcode_byte;
}

static void take_frame(void)
{
    uint8_t is_second = has_first && is_second_of(&first, &order);

    has_first = order.half == DALI_FIRST_HALF;
    since = board_clock();
    if (has_first) {
        first = order;
        answer(DALI_HEARD_SILENCE, 0);
    } else if (is_second) {
        send(&first, FIRST_ON_BUS);
    } else if (order.half == DALI_SECOND_HALF) {
        answer(DALI_LAPSED, 0);
    } else {
        send(&order, LAST_ON_BUS);
    }
}

/* What a line says. */

/* put P HHHH ask|tell [pair 1|2], as an order. */
static int read_frame(const char **at, struct dali_order *read)
{
    uint32_t priority, frame, half = 0;
    int asks;

    if (!read_word(at, "put") || !read_number(at, 1, &priority) || !read_number(at, 4, &frame))
        return 0;
    asks = read_word(at, "ask");
    if (!asks && !read_word(at, "tell"))
        return 0;
    if (read_word(at, "pair") && (!read_number(at, 1, &half) || half < 1 || half > 2))
        return 0;
    *read = (struct dali_order){.kind = DALI_PUT, .priority = (uint8_t)priority, .address_byte = (uint8_t)(frame >> 8),
                                .opcode_byte = (uint8_t)frame, .asks = asks != 0, .half = (uint8_t)half};
    return **at == 0 && priority >= 1 && priority <= 5 && (half != 2 || priority == DALI_LATER_PRIORITY);
}

/* begin SSSSSSSS: the session before it is over, and what it held back is not sent. */
static int read_begin(const char *at)
{
    uint32_t begun;

    if (!read_word(&at, "begin") || !read_number(&at, 8, &begun) || *at != 0)
        return 0;
    session = begun;
    number = 0;
    has_session = is_asked = 1;
    has_first = 0;
    if (phase == AT_REST)
        finish(0, 0);
    return 1;
}

static void take_line(void)
{
    const char *at = line;
    uint32_t of, numbered;

    line[count] = 0;
    if (!text_is_whole(line, &count)) {
        refuse("sum");
        return;
    }
    line[count] = 0;
    if (read_begin(line))
        return;
    if (!read_number(&at, 8, &of) || !read_number(&at, 2, &numbered))
        refuse("form");
    else if (!has_session || of != session)
        refuse("session");
    else if (numbered != (uint8_t)(number + 1))
        refuse("number");
    else if (phase != AT_REST)
        refuse("busy");
    else if (!read_frame(&at, &order)) {
        refuse("form");
    } else {
        number++;
        take_frame();
    }
}

static void take_byte(uint8_t byte)
{
    came = board_clock();
    if (byte != '\n') {
        is_long |= count == LONGEST;
        if (!is_long)
            line[count++] = (char)byte;
        return;
    }
    if (is_long)
        refuse("long");
    else if (count > 0)
        take_line();
    count = is_long = 0;
}

/* What time does. */
static void look_at_clock(void)
{
    uint32_t now = board_clock();

    if ((count > 0 || is_long) && now - came > GAP) {
        count = is_long = 0;
        refuse("cut");
    }
    if (phase == RELEASED && now - since > DRAW)
        finish(DALI_DESTROYED, 0);
    else if ((phase == FIRST_ON_BUS || phase == LAST_ON_BUS) && now - since > PATIENCE)
        release();
}

int main(void)
{
    int byte;

    board_begin();
    release();
    say_message("started", "");
    for (;;) {
        board_feed();
        while ((byte = ring_take(&received)) >= 0)
            take_byte((uint8_t)byte);
        if (told != 0) {
            uint8_t input = told;

            told = 0;
            take_word(input, told_byte);
        }
        look_at_clock();
        board_lock();
        if (told == 0 && ring_is_empty(&received))
            board_rest();
        board_unlock();
    }
}
