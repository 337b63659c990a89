/*
 * A store in a file: loaded whole, changed in memory, and replaced whole, by
 * the calls of lagunedo_file.h. What those say is complained of here.
 */

#ifndef DESK_STORE_FILE_H
#define DESK_STORE_FILE_H

#include <stddef.h>
#include <stdint.h>

#include "input.h"
#include "lagunedo_file.h"

struct store_file {
    struct lagunedo_file file;
    int replaced; /* whether the new store is in the old one's place */
    size_t length;
    uint8_t bytes[STORE_ROOM];
};

/*
 * Locks the store if it is to be changed, and then loads it. Gives a status;
 * the store is open with DESK_DONE alone.
 */
int store_open(struct store_file *store, const char *path,
               enum lagunedo_file_purpose purpose, int wait);

/*
 * Puts the bytes in the store's place. Gives a status: with DESK_FILE the old
 * store stands; with DESK_UNCONFIRMED the new one, which a loss of power may
 * undo.
 */
int store_replace(struct store_file *store);

/* The same, after the old store was kept as STORE.desk-before, with word. */
int store_replace_and_keep(struct store_file *store);

void store_close(struct store_file *store);

#endif
