/* The records of one controller in a file: five bytes and two check bytes each, oldest first. */
#ifndef STORE_H
#define STORE_H

#include "dali_c.h"

struct store {
    int file;
};

enum store_status {
    STORE_OPEN = 0,
    /* The file cannot be opened, read or made safe; errno says why. */
    STORE_FAILED = 1,
    /* A record that is not the last one is damaged. */
    STORE_DAMAGED = 2,
    /* The records are none that a machine ordered, for this block of short addresses. */
    STORE_REFUSED = 3
};

/* Opens a file of records, which is made if it is not there, and adds all its records to
 * `records`. A last record that is not whole is cut off: the loss of power came while it was
 * written, and no machine was told of it. The store is closed again if it is not STORE_OPEN. */
enum store_status store_open(struct store *store, const char *path, struct dali_records *records);

/* Appends a record. 1 if it is safe from a loss of power now, else 0: then it is there or not,
 * and nothing may be kept before the store was opened again. */
int store_keep(struct store *store, const struct dali_record *record);

void store_close(struct store *store);

#endif
