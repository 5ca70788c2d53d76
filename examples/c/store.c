/* The records of one controller in a file. */
#define _POSIX_C_SOURCE 200809L

#include "store.h"

#include "stop.h"

#include <errno.h>
#include <fcntl.h>
#include <stdint.h>
#include <string.h>
#include <unistd.h>

#define RECORD_BYTES 5
#define STORED_BYTES 7
#define MOST_PATH 4096

/* CRC-16 with the polynomial 1021, begun at FFFF, so that seven zero bytes are no record. */
static uint16_t check_of(const uint8_t *bytes)
{
    uint16_t check = 0xFFFF;

    for (int at = 0; at < RECORD_BYTES; at++) {
        check ^= (uint16_t)(bytes[at] << 8);
        for (int bit = 0; bit < 8; bit++)
            check = (uint16_t)(check & 0x8000 ? check << 1 ^ 0x1021 : check << 1);
    }
    return check;
}

static void write_stored(uint8_t *stored, const struct dali_record *record)
{
    uint16_t check;

    stored[0] = record->kind;
    stored[1] = record->pair.short_address;
    stored[2] = record->pair.random_address.high;
    stored[3] = record->pair.random_address.middle;
    stored[4] = record->pair.random_address.low;
    check = check_of(stored);
    stored[5] = (uint8_t)(check >> 8);
    stored[6] = (uint8_t)(check & 0xFF);
}

/* 1 if the check bytes are right. */
static int read_stored(struct dali_record *record, const uint8_t *stored)
{
    record->kind = stored[0];
    record->pair.short_address = stored[1];
    record->pair.random_address.high = stored[2];
    record->pair.random_address.middle = stored[3];
    record->pair.random_address.low = stored[4];
    return check_of(stored) == (stored[5] << 8 | stored[6]);
}

/* Writes all bytes, however many a call of write takes. */
static int write_whole(int file, const uint8_t *bytes, size_t count)
{
    while (count > 0) {
        ssize_t written = write(file, bytes, count);

        if (written < 0 && errno != EINTR)
            return 0;
        if (written > 0) {
            bytes += written;
            count -= (size_t)written;
        }
    }
    return 1;
}

/* How many bytes there were: fewer than asked for at the end of the file, -1 at a failure. */
static int read_at(int file, off_t from, uint8_t *bytes)
{
    int count = 0;

    while (count < STORED_BYTES) {
        ssize_t more = pread(file, bytes + count, (size_t)(STORED_BYTES - count), from + count);

        if (more < 0 && errno != EINTR)
            return -1;
        if (more == 0)
            break;
        if (more > 0)
            count += (int)more;
    }
    return count;
}

/* A file that was just made is safe only when its folder is. */
static int make_folder_safe(const char *path)
{
    const char *slash = strrchr(path, '/');
    size_t length = slash == NULL ? 0 : (size_t)(slash - path) + 1;
    char folder[MOST_PATH] = ".";
    int file;
    int safe;

    if (length >= sizeof folder)
        return 0;
    memcpy(folder, path, length);
    file = open(folder, O_RDONLY);
    if (file < 0)
        return 0;
    safe = fsync(file) == 0;
    close(file);
    return safe;
}

/* Reads the records, and leaves the end of the file behind the last whole one. */
static enum store_status read_all(int file, struct dali_records *records)
{
    uint8_t stored[STORED_BYTES];
    uint8_t next;
    struct dali_record record;
    off_t from = 0;
    int count = read_at(file, from, stored);

    while (count == STORED_BYTES && read_stored(&record, stored)) {
        if (dali_records_add(records, &record) != DALI_OK)
            return STORE_REFUSED;
        from += STORED_BYTES;
        count = read_at(file, from, stored);
    }
    if (count < 0)
        return STORE_FAILED;
    if (count == STORED_BYTES && pread(file, &next, 1, from + STORED_BYTES) != 0)
        return STORE_DAMAGED;
    if (ftruncate(file, from) != 0 || lseek(file, from, SEEK_SET) != from || fsync(file) != 0)
        return STORE_FAILED;
    return STORE_OPEN;
}

enum store_status store_open(struct store *store, const char *path, struct dali_records *records)
{
    enum store_status status = STORE_FAILED;

    store->file = open(path, O_RDWR | O_CREAT, 0666);
    if (store->file < 0)
        return status;
    if (make_folder_safe(path))
        status = read_all(store->file, records);
    if (status != STORE_OPEN)
        close(store->file);
    return status;
}

int store_keep(struct store *store, const struct dali_record *record)
{
    uint8_t stored[STORED_BYTES];

    write_stored(stored, record);
    stop_in_store();
    /* One call would do. There are two so that a test can stop between them. */
    if (!write_whole(store->file, stored, 3))
        return 0;
    stop_in_store();
    if (!write_whole(store->file, stored + 3, STORED_BYTES - 3))
        return 0;
    stop_in_store();
    if (fsync(store->file) != 0)
        return 0;
    stop_in_store();
    return 1;
}

void store_close(struct store *store)
{
    close(store->file);
}
