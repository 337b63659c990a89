/*
 * Everything that is lent to one call of the store, kept together, so that
 * one comparison sees every byte lent and every byte around it.
 *
 * A check puts sheets into both rooms, now and wanted; changes wanted to what
 * the call should leave; and makes the call on now.
 */

#ifndef LENT_H
#define LENT_H

#include <stddef.h>
#include <stdint.h>

#include "check.h"
#include "lagunedo.h"
#include "record.h"

/* Where each byte string stands, with room for the largest that is lent. */
enum {
    STORE_KEY_MOST = 65,
    STORE_TEXT_MOST = 2097,
    STORE_UNIT_MOST = 65537,
    STORE_MOST = 1025 * LAGUNEDO_RECORD_SIZE,
    OLD_AT = GUARD,
    NEW_AT = OLD_AT + STORE_KEY_MOST + GUARD,
    XTS_AT = NEW_AT + STORE_KEY_MOST + GUARD,
    TEXT_AT = XTS_AT + STORE_KEY_MOST + GUARD,
    STORE_AT = TEXT_AT + STORE_UNIT_MOST + GUARD,
    LENT_BYTES = STORE_AT + STORE_MOST + GUARD
};

/* What is written behind pointers, and where in the room's words. */
enum {
    FAULT = 1,
    USED = 3,
    FREE = 5,
    CLEAR = 7,
    OLD_KEY = 9,
    NEW_KEY = 11,
    LENGTH = 13,
    REVISION = 15,
    OUTCOME = 17,
    WORDS = 19
};

/* The job lent is the middle one. */
enum { BEFORE_JOB, JOB, AFTER_JOB, JOBS };

struct room {
    uint32_t word[WORDS];
    struct lagunedo_job job[JOBS];
    uint8_t bytes[LENT_BYTES];
};

extern struct room now, wanted;

enum call_name {
    CHECK,
    READ,
    ADD,
    REVISE,
    REMOVE,
    STEP,
    JOB_STEP,
    ADD_XTS,
    CALLS
};

/*
 * One call: its name, the lengths of what is lent, and its numbers. It is
 * made by name, through the header's macros and with NULL for what has length
 * 0, or by the address of the library's own function. A conversion is lent its
 * unit as the text.
 */
struct call {
    enum call_name name;
    int by_address;
    size_t old_key, new_key, store, text, xts_key;
    uint32_t sheet, seen;
    uint64_t number;
};

/* A sheet; its text is made by fill from the seed. */
struct sheet {
    uint32_t number, revision;
    uint8_t mark;
    size_t length;
    uint32_t seed;
};

/*
 * Both rooms full of bytes without a pattern, keys of these lengths, and a
 * store of free slots. What is behind the store by more than a guard is not
 * looked at.
 */
void lend(size_t old_key, size_t new_key, size_t slots);

/*
 * A call on what was lent, with a text of no bytes and for sheet 0; of a
 * conversion the XTS key has 64 bytes, and the unit number 0.
 */
struct call call_of(enum call_name name);

uint8_t *slot_of(struct room *room, size_t slot);

/* A record as 01 tables it, enciphered under the key of its mark. */
void put_sheet(struct room *room, size_t slot, struct sheet sheet);

/* The same record in both rooms. */
void hold_sheet(size_t slot, struct sheet sheet);

/* The lead of a slot in both rooms; the rest of it is kept. */
void hold_lead(size_t slot, struct lead lead);

/* One byte of a slot in both rooms. */
void hold_byte(size_t slot, size_t at, uint8_t byte);

/* The text lent in both rooms, made by fill from the seed. */
void hold_text(size_t length, uint32_t seed);

/*
 * The unit that a text made from the seed is enciphered to, lent as the text
 * in both rooms, under the XTS key and for the number of the call.
 */
void hold_unit(const struct call *call, uint32_t seed);

/* The number that the call returns on what the room now holds. */
uint32_t made(const struct call *call);

/* Counts one check; a failed one is printed with the call. */
void call_check(int holds, const char *what, const struct call *call);

/*
 * Makes the call. It must return the number and leave now as wanted is; two
 * checks. Afterwards both rooms are as wanted.
 */
void expect(const struct call *call, uint32_t number, const char *what);

/* What a read is to leave: a text made from the seed, and two numbers. */
void want_read(size_t length, uint32_t seed, uint32_t revision);

/* One step at the place: its outcome, and the place moved on unless done. */
void step_at(enum call_name name, uint64_t place, uint32_t outcome,
             const char *what);

/*
 * The ways in which a used slot is made unsound, one field at a time. In both
 * rooms, and the slot's text is 40 bytes long.
 */
enum { FIELD_FLAWS = 8, FLAWS = 17 };

void flaw(size_t slot, size_t which);

#endif
