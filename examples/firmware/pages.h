/* The records of one controller in two pages of flash. One page is the store, until it is full: then the other one is
 * written anew with what stands, and becomes the store by its head, and a mark behind it, which are written last. */
#ifndef PAGES_H
#define PAGES_H

#include "dali_c.h"

#define PAGES 2
/* What flash writes at once, and only once after each erasure. */
#define SLOT_BYTES 8
/* A head, a mark, and more than the 128 records that a controller can have at one time. */
#define PAGE_SLOTS 256

/* The flash, which is yours; erased bytes are FF. 1 if it was done, else 0. A flash with error correction cannot read a slot that
 * a loss of power has torn: catch the fault of the processor that comes then, and answer 0. */
int flash_read(int page, int slot, uint8_t *bytes);
int flash_erase(int page);
int flash_write(int page, int slot, const uint8_t *bytes);

struct pages {
    /* Which page is the store, how often it was written anew, and its next free slot. */
    int page;
    uint16_t age;
    int slot;
};

enum pages_status {
    PAGES_OPEN = 0,
    /* The flash refuses to be erased or written. */
    PAGES_FAILED = 1,
    /* Something was there, and it is no store any more. */
    PAGES_DAMAGED = 2,
    /* The records are none that a machine ordered, for this block of short addresses. */
    PAGES_REFUSED = 3
};

/* Adds all records to `records`, which has none, and writes the store anew: a last record that was cut off is left out,
 * and one that was read, but may fade, is written in full. */
enum pages_status pages_open(struct pages *pages, struct dali_records *records);

/* Keeps a record beside those that stand. 1 if it is safe from a loss of power now, else 0: then it is there or not,
 * and nothing may be kept before the store was opened again. */
int pages_keep(struct pages *pages, const struct dali_records *standing, const struct dali_record *record);

#endif
