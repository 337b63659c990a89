/*
 * Bytes that come from outside: a key, a text, a unit, a store.
 *
 * The library tests their lengths, so each is read into room for one byte
 * more than it takes. Longer input fills that room and is refused for its
 * length; nothing is cut to fit.
 */

#ifndef DESK_INPUT_H
#define DESK_INPUT_H

#include <stddef.h>
#include <stdint.h>

#include "lagunedo.h"

enum {
    KEY_ROOM = LAGUNEDO_EME2_KEY_256 + 1,
    TEXT_ROOM = LAGUNEDO_TEXT_MOST + 1,
    UNIT_ROOM = LAGUNEDO_UNIT_MOST + 1,
    STORE_ROOM = LAGUNEDO_SLOT_LIMIT * LAGUNEDO_RECORD_SIZE + 1
};

struct key {
    size_t length;
    uint8_t bytes[KEY_ROOM];
};

struct text {
    size_t length;
    uint8_t bytes[TEXT_ROOM];
};

/* A unit under XTS-AES, whose key has as much room as another. */
struct unit {
    size_t length;
    uint8_t bytes[UNIT_ROOM];
};

/*
 * All bytes of a file, until it ends or the room is full, and how many they
 * are; a status.
 */
int file_read(const char *file, uint8_t *bytes, size_t room, size_t *length);

/* The key in the file; a status. */
int key_read(const char *file, struct key *key);

/* The text on standard input, every byte of it; a status. */
int text_read(struct text *text);

/* The same of a unit. */
int unit_read(struct unit *unit);

#endif
