/* The records of one controller in two pages of flash. */
#include "pages.h"

/* The first byte of a slot: that of a head, of the mark behind it, or the kind of a record; and the second one of a head. */
#define HEAD 0xDA
#define MARK 0xDB
#define FORMAT 2
#define BLANK 0xFF
#define CHECKED 5
/* The slots of a page: its head, the mark, and the first record. */
#define HEAD_SLOT 0
#define MARK_SLOT 1
#define FIRST_SLOT 2

/* CRC-16 with the polynomial 1021, begun at FFFF. */
static uint16_t check_of(const uint8_t *slot)
{
    uint16_t check = 0xFFFF;

    for (int at = 0; at < CHECKED; at++) {
        check ^= (uint16_t)(slot[at] << 8);
        for (int bit = 0; bit < 8; bit++)
            check = (uint16_t)(check & 0x8000 ? check << 1 ^ 0x1021 : check << 1);
    }
    return check;
}

static int write_slot(int page, int slot, const uint8_t *bytes)
{
    uint16_t check = check_of(bytes);
    uint8_t whole[SLOT_BYTES] = {bytes[0], bytes[1], bytes[2], bytes[3], bytes[4], (uint8_t)(check >> 8), (uint8_t)check, 0};

    return flash_write(page, slot, whole);
}

/* Reads a slot once: what a loss of power has torn may read otherwise the next time. 1 if it is whole. */
static int read_whole(int page, int slot, uint8_t *bytes)
{
    return flash_read(page, slot, bytes) && bytes[7] == 0 && check_of(bytes) == (bytes[5] << 8 | bytes[6]);
}

static int is_blank(int page, int slot)
{
    uint8_t bytes[SLOT_BYTES];

    if (!flash_read(page, slot, bytes))
        return 0;
    for (int at = 0; at < SLOT_BYTES; at++) {
        if (bytes[at] != BLANK)
            return 0;
    }
    return 1;
}

static int is_blank_from(int page, int slot)
{
    while (slot < PAGE_SLOTS && is_blank(page, slot))
        slot++;
    return slot == PAGE_SLOTS;
}

/* Once the mark was begun, the head before it is whole for good. One without it may have been torn, and no record was kept
 * behind it. */
enum rank { NO_HEAD = 0, UNMARKED = 1, MARKED = 2 };

struct head {
    enum rank rank;
    uint16_t age;
};

static struct head head_of(int page)
{
    uint8_t bytes[SLOT_BYTES];
    struct head head = {NO_HEAD, 0};

    if (read_whole(page, HEAD_SLOT, bytes) && bytes[0] == HEAD && bytes[1] == FORMAT) {
        head.rank = is_blank(page, MARK_SLOT) ? UNMARKED : MARKED;
        head.age = (uint16_t)(bytes[2] << 8 | bytes[3]);
    }
    return head;
}

static int write_record(int page, int slot, uint8_t kind, const struct dali_pair *pair)
{
    uint8_t bytes[CHECKED] = {kind, pair->short_address, pair->random_address.high, pair->random_address.middle,
                              pair->random_address.low};

    return write_slot(page, slot, bytes);
}

/* Writes what stands into the other page, which is the store once its head and the mark are there. */
static int write_anew(struct pages *pages, const struct dali_records *standing)
{
    int page = 1 - pages->page;
    uint16_t age = (uint16_t)(pages->age + 1);
    uint8_t head[CHECKED] = {HEAD, FORMAT, (uint8_t)(age >> 8), (uint8_t)age, 0};
    uint8_t mark[CHECKED] = {MARK, 0, 0, 0, 0};
    int slot = FIRST_SLOT;

    if (!flash_erase(page))
        return 0;
    for (int at = 0; at < standing->reserved.count; at++) {
        if (!write_record(page, slot++, DALI_RESERVE, &standing->reserved.pairs[at]))
            return 0;
    }
    for (int at = 0; at < standing->enrolled.count; at++) {
        if (!write_record(page, slot++, DALI_ENROL, &standing->enrolled.pairs[at]))
            return 0;
    }
    if (!write_slot(page, HEAD_SLOT, head) || !write_slot(page, MARK_SLOT, mark))
        return 0;
    pages->page = page;
    pages->age = age;
    pages->slot = slot;
    return 1;
}

/* Finds the page that is the store: of two that are marked the newer, and of two that are not the older, since both have the
 * same records. Without a head there was no store yet, if no record was ever written. */
static enum pages_status find(struct pages *pages)
{
    struct head heads[PAGES] = {head_of(0), head_of(1)};
    /* Ages go round. */
    uint16_t ahead = (uint16_t)(heads[1].age - heads[0].age);
    int is_newer = ahead > 0 && ahead < 0x8000;
    int is_equal = heads[0].rank == heads[1].rank;

    pages->page = is_equal ? is_newer == (heads[1].rank == MARKED) : heads[1].rank > heads[0].rank;
    pages->age = heads[pages->page].age;
    pages->slot = heads[pages->page].rank != NO_HEAD ? FIRST_SLOT : PAGE_SLOTS;
    if (heads[pages->page].rank != NO_HEAD || (is_blank_from(0, FIRST_SLOT) && is_blank_from(1, FIRST_SLOT)))
        return PAGES_OPEN;
    return PAGES_DAMAGED;
}

static enum pages_status read_all(struct pages *pages, struct dali_records *records)
{
    uint8_t bytes[SLOT_BYTES];

    while (pages->slot < PAGE_SLOTS && read_whole(pages->page, pages->slot, bytes)) {
        struct dali_record record = {bytes[0], {bytes[1], {bytes[2], bytes[3], bytes[4]}}};

        if (dali_records_add(records, &record) != DALI_OK)
            return PAGES_REFUSED;
        pages->slot++;
    }
    /* The last one may be cut off, and nothing stands behind it. */
    return pages->slot == PAGE_SLOTS || is_blank_from(pages->page, pages->slot + 1) ? PAGES_OPEN : PAGES_DAMAGED;
}

enum pages_status pages_open(struct pages *pages, struct dali_records *records)
{
    enum pages_status status = find(pages);

    if (status == PAGES_OPEN)
        status = read_all(pages, records);
    if (status == PAGES_OPEN && !write_anew(pages, records))
        status = PAGES_FAILED;
    return status;
}

int pages_keep(struct pages *pages, const struct dali_records *standing, const struct dali_record *record)
{
    if (pages->slot == PAGE_SLOTS && !write_anew(pages, standing))
        return 0;
    return write_record(pages->page, pages->slot++, record->kind, &record->pair);
}
