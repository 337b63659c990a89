/*
 * Check, read, add, revise and remove where they do their work: what they
 * answer, the slot they write, and that every other byte stays. A sheet is
 * followed from its adding to its removal, with each call made again. Which
 * revisions there are is in test_revisions.c.
 */

#include <string.h>

#include "lent.h"

/* The key lengths of 01 in every combination, the old key's first. */
static const size_t key_lengths[4][2] = {
    { 48, 48 }, { 48, 64 }, { 64, 48 }, { 64, 64 }
};

static void want_counts(uint32_t used, uint32_t free_slots, uint32_t clear,
                        uint32_t old_key, uint32_t new_key)
{
    wanted.word[USED] = used;
    wanted.word[FREE] = free_slots;
    wanted.word[CLEAR] = clear;
    wanted.word[OLD_KEY] = old_key;
    wanted.word[NEW_KEY] = new_key;
}

/* 01, "Listing": the store of two slots given there byte for byte. */
static void listed(void)
{
    static const uint8_t lead[10] = { 0x31, 0x01, 0, 0, 2, 0, 0, 0, 0x10, 0 };
    struct call check, read;
    size_t i;

    lend(48, 64, 2);
    check = call_of(CHECK);
    read = call_of(READ);
    for (i = 0; i < sizeof lead; i++)
        hold_byte(0, i, lead[i]);
    for (i = 0; i < 16; i++)
        hold_byte(0, 16 + i, (uint8_t)"PRESS 4 HOLD 5AM"[i]);

    want_counts(1, 1, 1, 0, 0);
    expect(&check, LAGUNEDO_DONE, "the store of 01, counts");
    read.sheet = 305;
    read.text = LAGUNEDO_TEXT_MOST;
    memcpy(wanted.bytes + TEXT_AT, "PRESS 4 HOLD 5AM", 16);
    wanted.word[LENGTH] = 16;
    wanted.word[REVISION] = 2;
    expect(&read, LAGUNEDO_DONE, "the store of 01, sheet 305");
}

/*
 * A sheet from its adding to its removal, each call made again as by a server
 * that lost the answer.
 */
static void life(size_t old_key, size_t new_key, int by_address)
{
    struct sheet sheet = { 305, 1, LAGUNEDO_MARK_NEW_KEY, 100, 21 };
    struct sheet other = { 306, 9, LAGUNEDO_MARK_OLD_KEY, 33, 22 };
    struct call add, read, revise, remove;

    lend(old_key, new_key, 4);
    hold_sheet(0, other);
    add = call_of(ADD);
    read = call_of(READ);
    revise = call_of(REVISE);
    remove = call_of(REMOVE);
    add.sheet = read.sheet = revise.sheet = remove.sheet = 305;
    add.by_address = read.by_address = by_address;
    revise.by_address = remove.by_address = by_address;
    read.text = 200;

    hold_text(100, 21);
    add.text = 100;
    put_sheet(&wanted, 1, sheet);
    wanted.word[REVISION] = 1;
    expect(&add, LAGUNEDO_DONE, "added");
    expect(&add, LAGUNEDO_SHEET_PRESENT, "added again");

    hold_text(200, 23);
    want_read(100, 21, 1);
    expect(&read, LAGUNEDO_DONE, "read");
    expect(&read, LAGUNEDO_DONE, "read again");

    hold_text(61, 24);
    revise.text = 61;
    revise.seen = 1;
    sheet.revision = 2;
    sheet.length = 61;
    sheet.seed = 24;
    put_sheet(&wanted, 1, sheet);
    wanted.word[REVISION] = 2;
    expect(&revise, LAGUNEDO_DONE, "revised");
    expect(&revise, LAGUNEDO_OTHER_REVISION, "revised again");

    hold_text(200, 25);
    want_read(61, 24, 2);
    expect(&read, LAGUNEDO_DONE, "read after its revision");

    memset(slot_of(&wanted, 1), 0, LAGUNEDO_RECORD_SIZE);
    expect(&remove, LAGUNEDO_DONE, "removed");
    expect(&remove, LAGUNEDO_NO_SHEET, "removed again");
    expect(&read, LAGUNEDO_NO_SHEET, "read after its removal");
    expect(&revise, LAGUNEDO_NO_SHEET, "revised late, after its removal");

    hold_text(100, 26);
    sheet.revision = 1;
    sheet.length = 100;
    sheet.seed = 26;
    put_sheet(&wanted, 1, sheet);
    wanted.word[REVISION] = 1;
    expect(&add, LAGUNEDO_DONE, "added anew");

    /* The late revision names revision 1, which the new sheet has. */
    hold_text(61, 24);
    sheet.revision = 2;
    sheet.length = 61;
    sheet.seed = 24;
    put_sheet(&wanted, 1, sheet);
    wanted.word[REVISION] = 2;
    expect(&revise, LAGUNEDO_DONE, "revised late, after an add anew");

    /* A removal made again removes a sheet that was added since. */
    memset(slot_of(&wanted, 1), 0, LAGUNEDO_RECORD_SIZE);
    expect(&remove, LAGUNEDO_DONE, "removed again, after an add anew");

    hold_text(200, 27);
    read.sheet = 306;
    want_read(33, 22, 9);
    expect(&read, LAGUNEDO_DONE, "read under the old key");
}

/* Every mark and the edges of the length, in a buffer that fits or not. */
static void read_into(struct sheet sheet, size_t old_key, size_t new_key)
{
    struct call read;

    lend(old_key, new_key, 3);
    hold_sheet(1, sheet);
    read = call_of(READ);
    read.sheet = sheet.number;

    read.text = sheet.length - 1;
    expect(&read, LAGUNEDO_BUFFER_LENGTH, "a buffer one byte short");
    read.text = 1;
    expect(&read, LAGUNEDO_BUFFER_LENGTH, "a buffer of one byte");
    read.text = 0;
    expect(&read, LAGUNEDO_BUFFER_LENGTH, "no buffer");
    read.by_address = 1;
    expect(&read, LAGUNEDO_BUFFER_LENGTH, "no buffer");

    read.text = sheet.length;
    want_read(sheet.length, sheet.seed, sheet.revision);
    expect(&read, LAGUNEDO_DONE, "a buffer that fits exactly");

    read.by_address = 0;
    read.text = STORE_TEXT_MOST;
    hold_text(STORE_TEXT_MOST, 31);
    want_read(sheet.length, sheet.seed, sheet.revision);
    expect(&read, LAGUNEDO_DONE, "a buffer with bytes to spare");
}

static void reads(void)
{
    static const size_t lengths[] = { 16, 17, 31, 32, 33, 2095, 2096 };
    static const uint32_t revisions[] = { 1,     2,     255,        256,
                                          65535, 65536, 0x04030201u };
    struct sheet sheet = { 0x04030201u, 0, 0, 0, 0 };
    size_t i, k;

    for (sheet.mark = 0; sheet.mark < 3; sheet.mark++)
        for (i = 0; i < sizeof lengths / sizeof lengths[0]; i++)
            for (k = 0; k < 4; k++) {
                sheet.length = lengths[i];
                sheet.revision = revisions[i];
                sheet.seed = (uint32_t)(40 + i);
                read_into(sheet, key_lengths[k][0], key_lengths[k][1]);
            }
}

/* Each text length on both sides of an edge, in a slot of noise and zeros. */
static void add_length(size_t length, uint32_t number, size_t old_key,
                       size_t new_key)
{
    struct sheet first = { 7, 3, LAGUNEDO_MARK_CLEAR, 16, 51 };
    struct sheet added = { 0, 1, LAGUNEDO_MARK_NEW_KEY, 0, 52 };
    struct call add;
    size_t at;

    lend(old_key, new_key, 3);
    hold_sheet(0, first);
    for (at = 4; at < LAGUNEDO_RECORD_SIZE; at++)
        hold_byte(1, at, (uint8_t)(at | 1));
    add = call_of(ADD);
    add.sheet = added.number = number;
    add.text = added.length = length;
    hold_text(length, added.seed);
    put_sheet(&wanted, 1, added);
    wanted.word[REVISION] = 1;
    expect(&add, LAGUNEDO_DONE, "added in the place of noise");

    memset(slot_of(&wanted, 1), 0, LAGUNEDO_RECORD_SIZE);
    memset(slot_of(&now, 1), 0, LAGUNEDO_RECORD_SIZE);
    put_sheet(&wanted, 1, added);
    add.by_address = 1;
    expect(&add, LAGUNEDO_DONE, "added in the place of zeros");
}

/* Slots are filled from the lowest, until there is none. */
static void add_until_full(void)
{
    static const uint32_t freed[2] = { 1, 4 };
    struct sheet sheet = { 0, 1, LAGUNEDO_MARK_NEW_KEY, 20, 53 };
    struct call add, remove;
    uint32_t i;

    lend(64, 48, 5);
    add = call_of(ADD);
    add.text = 20;
    hold_text(20, 53);
    wanted.word[REVISION] = 1;
    for (i = 0; i < 5; i++) {
        add.sheet = sheet.number = 1000 - i;
        put_sheet(&wanted, i, sheet);
        expect(&add, LAGUNEDO_DONE, "added to the lowest free slot");
    }
    add.sheet = 7;
    expect(&add, LAGUNEDO_NO_FREE_SLOT, "added to a full store");

    /* Two slots freed: the lower one is used, then the other. */
    remove = call_of(REMOVE);
    for (i = 0; i < 2; i++) {
        remove.sheet = 1000 - freed[1 - i];
        memset(slot_of(&wanted, freed[1 - i]), 0, LAGUNEDO_RECORD_SIZE);
        expect(&remove, LAGUNEDO_DONE, "removed from a full store");
    }
    for (i = 0; i < 2; i++) {
        add.sheet = sheet.number = 2000 + i;
        put_sheet(&wanted, freed[i], sheet);
        expect(&add, LAGUNEDO_DONE, "added to a slot freed");
    }
    add.sheet = 7;
    expect(&add, LAGUNEDO_NO_FREE_SLOT, "added to a store full again");
}

static void adds(void)
{
    static const size_t lengths[] = { 16, 17, 32, 33, 2064, 2065, 2095, 2096 };
    static const uint32_t sheets[] = { 1,     255,     256,       65535,
                                       65536, 1u << 24, 1u << 31, 0xffffffffu };
    size_t i, k;

    for (i = 0; i < sizeof lengths / sizeof lengths[0]; i++)
        for (k = 0; k < 4; k++)
            add_length(lengths[i], sheets[i], key_lengths[k][0],
                       key_lengths[k][1]);
    add_until_full();
}

/* From every mark and to texts shorter and longer than the stored one. */
static void revise_from(uint8_t mark, size_t from, size_t to, size_t old_key,
                        size_t new_key)
{
    struct sheet sheet = { 77, 4711, 0, 0, 61 };
    struct call revise;

    sheet.mark = mark;
    sheet.length = from;
    lend(old_key, new_key, 3);
    hold_sheet(1, sheet);
    revise = call_of(REVISE);
    revise.sheet = 77;
    revise.seen = 4711;
    revise.text = to;
    hold_text(to, 62);

    sheet.revision = 4712;
    sheet.mark = LAGUNEDO_MARK_NEW_KEY;
    sheet.length = to;
    sheet.seed = 62;
    put_sheet(&wanted, 1, sheet);
    wanted.word[REVISION] = 4712;
    expect(&revise, LAGUNEDO_DONE, "revised to another length");
}

static void revises(void)
{
    static const size_t lengths[] = { 16, 17, 500, 2096 };
    uint8_t mark;
    size_t i, j;

    for (mark = 0; mark < 3; mark++)
        for (i = 0; i < 4; i++)
            for (j = 0; j < 4; j++)
                revise_from(mark, lengths[i], lengths[j], key_lengths[j][0],
                            key_lengths[j][1]);
}

/* Numbers alike but for one byte are different sheets. */
static void alike(void)
{
    static const uint32_t numbers_alike[] = { 0x00000105u, 0x00010005u,
                                              0x01000005u, 0x00000005u,
                                              0x05000000u };
    struct sheet sheet = { 0, 1, LAGUNEDO_MARK_OLD_KEY, 30, 0 };
    struct call check, read, remove;
    uint32_t i;

    lend(64, 48, 5);
    for (i = 0; i < 5; i++) {
        sheet.number = numbers_alike[i];
        sheet.seed = 70 + i;
        hold_sheet(i, sheet);
    }
    check = call_of(CHECK);
    read = call_of(READ);
    remove = call_of(REMOVE);
    want_counts(5, 0, 0, 5, 0);
    expect(&check, LAGUNEDO_DONE, "several alike, and none a repeat");
    read.text = 30;
    for (i = 5; i-- > 0;) {
        read.sheet = numbers_alike[i];
        want_read(30, 70 + i, 1);
        expect(&read, LAGUNEDO_DONE, "one of several alike");
    }
    read.sheet = 0x00050000u;
    expect(&read, LAGUNEDO_NO_SHEET, "none of several alike");
    for (i = 5; i-- > 0;) {
        remove.sheet = numbers_alike[i];
        memset(slot_of(&wanted, i), 0, LAGUNEDO_RECORD_SIZE);
        expect(&remove, LAGUNEDO_DONE, "one of several alike");
    }
}

/* A sheet number in two slots: the lowest is taken, the other kept. */
static void repeated(void)
{
    struct sheet low = { 80, 5, LAGUNEDO_MARK_OLD_KEY, 40, 81 };
    struct sheet high = { 80, 6, LAGUNEDO_MARK_CLEAR, 50, 82 };
    struct call check, read, add, revise, remove;

    lend(48, 48, 5);
    hold_sheet(1, low);
    hold_sheet(3, high);
    check = call_of(CHECK);
    read = call_of(READ);
    add = call_of(ADD);
    revise = call_of(REVISE);
    remove = call_of(REMOVE);
    read.sheet = add.sheet = revise.sheet = remove.sheet = 80;
    read.text = 100;
    revise.text = add.text = 16;

    wanted.word[FAULT] = 3;
    expect(&check, LAGUNEDO_FAULT, "the higher slot repeats the lower");
    want_read(40, 81, 5);
    expect(&read, LAGUNEDO_DONE, "the lower of two read");
    expect(&add, LAGUNEDO_SHEET_PRESENT, "a number that stands twice");
    revise.seen = 6;
    expect(&revise, LAGUNEDO_OTHER_REVISION, "the higher's revision named");
    revise.seen = 5;
    hold_text(16, 83);
    low.revision = 6;
    low.mark = LAGUNEDO_MARK_NEW_KEY;
    low.length = 16;
    low.seed = 83;
    put_sheet(&wanted, 1, low);
    wanted.word[REVISION] = 6;
    expect(&revise, LAGUNEDO_DONE, "the lower of two revised");

    /* Soundness is asked of the slot found, and of no other. */
    hold_byte(3, LEAD_GAP, 1);
    want_read(16, 83, 6);
    expect(&read, LAGUNEDO_DONE, "the lower of two, the higher unsound");
    hold_byte(3, LEAD_GAP, 0);
    hold_byte(1, LEAD_GAP, 1);
    expect(&read, LAGUNEDO_SLOT_UNSOUND, "the lower of two unsound");
    revise.seen = 6;
    expect(&revise, LAGUNEDO_SLOT_UNSOUND, "the lower of two unsound");

    memset(slot_of(&wanted, 1), 0, LAGUNEDO_RECORD_SIZE);
    expect(&remove, LAGUNEDO_DONE, "the lower of two removed");
    want_read(50, 82, 6);
    expect(&read, LAGUNEDO_DONE, "the higher of two is left");
    memset(slot_of(&wanted, 3), 0, LAGUNEDO_RECORD_SIZE);
    expect(&remove, LAGUNEDO_DONE, "the higher of two removed");
    expect(&remove, LAGUNEDO_NO_SHEET, "none of two left");
}

/* Each field of a used slot on the wrong side of its edge. */
static void unsound(size_t which, uint8_t mark)
{
    struct sheet before = { 90, 1, LAGUNEDO_MARK_NEW_KEY, 16, 91 };
    struct sheet flawed = { 93, 300, 0, 40, 92 };
    struct call check, read, add, revise, remove;

    flawed.mark = mark;
    lend(64, 64, 3);
    hold_sheet(0, before);
    hold_sheet(1, flawed);
    check = call_of(CHECK);
    read = call_of(READ);
    add = call_of(ADD);
    revise = call_of(REVISE);
    remove = call_of(REMOVE);
    read.sheet = add.sheet = revise.sheet = remove.sheet = 93;
    read.text = add.text = revise.text = LAGUNEDO_TEXT_MOST;
    revise.seen = 300;

    want_counts(2, 1, mark == 0, mark == 1, (mark == 2) + 1u);
    expect(&check, LAGUNEDO_DONE, "sound before the flaw");
    flaw(1, which);
    wanted.word[FAULT] = 1;
    expect(&check, LAGUNEDO_FAULT, "a flawed slot");
    expect(&read, LAGUNEDO_SLOT_UNSOUND, "a flawed slot");
    read.text = 0;
    expect(&read, LAGUNEDO_SLOT_UNSOUND, "a flawed slot, no buffer");
    expect(&add, LAGUNEDO_SHEET_PRESENT, "a flawed slot");
    expect(&revise, LAGUNEDO_SLOT_UNSOUND, "a flawed slot");
    revise.seen = 0;
    expect(&revise, LAGUNEDO_SLOT_UNSOUND, "a flawed slot, 0 named");

    /* The sheet before it is not touched by the flaw. */
    read.sheet = 90;
    read.text = 16;
    want_read(16, 91, 1);
    expect(&read, LAGUNEDO_DONE, "a sound slot beside a flawed one");

    memset(slot_of(&wanted, 1), 0, LAGUNEDO_RECORD_SIZE);
    expect(&remove, LAGUNEDO_DONE, "a flawed slot");
    want_counts(1, 2, 0, 0, 1);
    expect(&check, LAGUNEDO_DONE, "sound after the removal");
}

/* The edges of each field on the right side. */
static void sound(void)
{
    static const struct sheet sheets[] = {
        { 1, 1, 0, 16, 1 },           { 0xffffffffu, 0xffffffffu, 2, 2096, 2 },
        { 2, 65536, 1, 17, 3 },       { 1u << 24, 65535, 0, 2096, 4 },
        { 65536, 1, 1, 2095, 5 },     { 256, 255, 2, 16, 6 }
    };
    struct call check;
    size_t i;

    lend(48, 64, 8);
    for (i = 0; i < 6; i++)
        hold_sheet(i + 1, sheets[i]);
    /* A text of nothing but zeros is a text, and zeros may end any. */
    memset(slot_of(&now, 1) + 16, 0, 16);
    memset(slot_of(&wanted, 1) + 16, 0, 16);
    check = call_of(CHECK);
    want_counts(6, 2, 2, 2, 2);
    expect(&check, LAGUNEDO_DONE, "the edges of each field");
    check.by_address = 1;
    expect(&check, LAGUNEDO_DONE, "the edges of each field, again");
}

/* The lowest fault is named, whatever its kind. */
static void faults(void)
{
    static const size_t places[] = { 4, 6, 7, 8, 15, 16, 17, 1000, 2111 };
    struct sheet sheet = { 95, 1, LAGUNEDO_MARK_OLD_KEY, 40, 96 };
    struct call check;
    size_t i;

    for (i = 0; i < sizeof places / sizeof places[0]; i++) {
        lend(48, 48, 4);
        check = call_of(CHECK);
        hold_byte(i % 4, places[i], 1);
        wanted.word[FAULT] = (uint32_t)(i % 4);
        expect(&check, LAGUNEDO_FAULT, "sheet number 0 and one byte set");
    }

    lend(48, 48, 6);
    check = call_of(CHECK);
    hold_sheet(1, sheet);
    hold_sheet(2, sheet);
    hold_sheet(5, sheet);
    hold_byte(4, 2000, 1);
    check.store -= 1;
    expect(&check, LAGUNEDO_STORE_LENGTH, "a bad size before any fault");
    check.store += 1;
    wanted.word[FAULT] = 2;
    expect(&check, LAGUNEDO_FAULT, "a repeat below another fault");
    hold_byte(1, LEAD_GAP, 9);
    wanted.word[FAULT] = 1;
    expect(&check, LAGUNEDO_FAULT, "a flaw below its repeat");
    hold_byte(1, LEAD_GAP, 0);
    memset(slot_of(&now, 2), 0, LAGUNEDO_RECORD_SIZE);
    memset(slot_of(&wanted, 2), 0, LAGUNEDO_RECORD_SIZE);
    wanted.word[FAULT] = 4;
    expect(&check, LAGUNEDO_FAULT, "a free slot's fault below a repeat");
    hold_byte(4, 2000, 0);
    wanted.word[FAULT] = 5;
    expect(&check, LAGUNEDO_FAULT, "a repeat in the last slot");
    sheet.number = 96;
    hold_sheet(5, sheet);
    want_counts(2, 4, 0, 2, 0);
    expect(&check, LAGUNEDO_DONE, "no fault left");
}

static void empty(int by_address)
{
    struct call check, by_number;
    int name;

    lend(48, 64, 0);
    check = call_of(CHECK);
    check.by_address = by_address;
    want_counts(0, 0, 0, 0, 0);
    expect(&check, LAGUNEDO_DONE, "an empty store");
    for (name = READ; name <= REMOVE; name++) {
        by_number = call_of((enum call_name)name);
        by_number.by_address = by_address;
        by_number.sheet = 1;
        by_number.seen = 1;
        by_number.text = 16;
        expect(&by_number,
               name == ADD ? LAGUNEDO_NO_FREE_SLOT : LAGUNEDO_NO_SHEET,
               "an empty store");
    }
}

/* The most slots that a store may have, all used but the last. */
static void largest(void)
{
    struct sheet sheet = { 0, 1, LAGUNEDO_MARK_CLEAR, 16, 0 };
    struct sheet last = { 5000, 1, LAGUNEDO_MARK_NEW_KEY, 2096, 101 };
    struct call check, read, add, revise, remove;
    uint32_t i;

    lend(64, 48, 1024);
    for (i = 0; i < 1023; i++) {
        sheet.number = 3000 - i;
        sheet.seed = i;
        hold_sheet(i, sheet);
    }
    check = call_of(CHECK);
    read = call_of(READ);
    add = call_of(ADD);
    revise = call_of(REVISE);
    remove = call_of(REMOVE);

    want_counts(1023, 1, 1023, 0, 0);
    expect(&check, LAGUNEDO_DONE, "1,024 slots");

    add.sheet = read.sheet = revise.sheet = remove.sheet = 5000;
    add.text = read.text = 2096;
    hold_text(2096, 101);
    put_sheet(&wanted, 1023, last);
    wanted.word[REVISION] = 1;
    expect(&add, LAGUNEDO_DONE, "the last of 1,024 slots");
    want_counts(1024, 0, 1023, 0, 1);
    expect(&check, LAGUNEDO_DONE, "1,024 slots used");
    add.sheet = 5001;
    expect(&add, LAGUNEDO_NO_FREE_SLOT, "1,024 slots used");

    hold_text(2096, 102);
    want_read(2096, 101, 1);
    expect(&read, LAGUNEDO_DONE, "the last of 1,024 slots");

    revise.seen = 1;
    revise.text = 16;
    hold_text(16, 103);
    last.revision = 2;
    last.length = 16;
    last.seed = 103;
    put_sheet(&wanted, 1023, last);
    wanted.word[REVISION] = 2;
    expect(&revise, LAGUNEDO_DONE, "the last of 1,024 slots");

    hold_byte(1023, 2111, 1);
    wanted.word[FAULT] = 1023;
    expect(&check, LAGUNEDO_FAULT, "the last of 1,024 slots flawed");
    hold_byte(1023, 2111, 0);
    hold_sheet(1023, sheet);
    expect(&check, LAGUNEDO_FAULT, "the last of 1,024 slots a repeat");
    remove.sheet = 3000 - 1022;
    memset(slot_of(&wanted, 1022), 0, LAGUNEDO_RECORD_SIZE);
    expect(&remove, LAGUNEDO_DONE, "the lower of the last two");
    memset(slot_of(&wanted, 1023), 0, LAGUNEDO_RECORD_SIZE);
    expect(&remove, LAGUNEDO_DONE, "the last of 1,024 slots");
    want_counts(1022, 2, 1022, 0, 0);
    expect(&check, LAGUNEDO_DONE, "1,024 slots, two free");
}

/* One key lent as both, by the same address. */
static void one_key(void)
{
    struct sheet sheet = { 130, 1, LAGUNEDO_MARK_NEW_KEY, 40, 131 };
    struct call add, read;
    const uint8_t *key;

    lend(64, 64, 2);
    add = call_of(ADD);
    read = call_of(READ);
    key = now.bytes + NEW_AT;
    hold_text(40, 131);
    call_check(lagunedo_add(key, 64, key, 64, now.bytes + STORE_AT, add.store,
                            130, now.bytes + TEXT_AT, 40,
                            &now.word[REVISION]) == LAGUNEDO_DONE,
               "one key for both", &add);
    put_sheet(&wanted, 0, sheet);
    call_check(memcmp(slot_of(&now, 0), slot_of(&wanted, 0),
                      LAGUNEDO_RECORD_SIZE) == 0,
               "one key for both", &add);
    hold_text(40, 132);
    call_check(lagunedo_read(key, 64, key, 64, now.bytes + STORE_AT,
                             read.store, 130, now.bytes + TEXT_AT, 40,
                             &now.word[LENGTH],
                             &now.word[REVISION]) == LAGUNEDO_DONE,
               "one key for both", &read);
    fill(wanted.bytes + TEXT_AT, 40, 131);
    call_check(memcmp(now.bytes + TEXT_AT, wanted.bytes + TEXT_AT, 40) == 0,
               "one key for both", &read);
}

/* A text is read as it stands: forgery is not detected, here as in EME2. */
static void forged(void)
{
    static const size_t turned[] = { 5, 16, 55 };
    struct sheet sheet = { 110, 300, LAGUNEDO_MARK_NEW_KEY, 40, 111 };
    struct call check, read;
    uint8_t text[40];
    size_t i;

    fill(text, sizeof text, sheet.seed);
    for (i = 0; i < sizeof turned / sizeof turned[0]; i++) {
        lend(48, 64, 1);
        hold_sheet(0, sheet);
        slot_of(&now, 0)[turned[i]] ^= 2;
        check = call_of(CHECK);
        read = call_of(READ);
        read.sheet = 110;
        read.text = 40;
        call_check(made(&check) == LAGUNEDO_DONE, "changed, and sound",
                   &check);
        call_check(made(&read) == LAGUNEDO_DONE &&
                       now.word[LENGTH] == 40 &&
                       memcmp(now.bytes + TEXT_AT, text, 40) != 0,
                   "changed, and read as other bytes", &read);
    }
}

/*
 * Answers of the project's own second implementation (host/rust/second): what
 * an add stores of its text, and the whole store after it and a revision. The
 * old key is made by fill from seed 1 and the new key from seed 2.
 */
static void known(void)
{
    struct sheet old = { 120, 3, LAGUNEDO_MARK_OLD_KEY, 40, 121 };
    struct call add, revise;
    uint8_t stored[17];

    lend(48, 64, 3);
    fill(now.bytes + OLD_AT, 48, 1);
    fill(now.bytes + NEW_AT, 64, 2);
    put_sheet(&now, 0, old);
    add = call_of(ADD);
    add.sheet = 305;
    add.text = 17;
    fill(now.bytes + TEXT_AT, 17, 122);
    call_check(made(&add) == LAGUNEDO_DONE, "known answer refused", &add);
    from_hex("890701fdd822d51a602c82e3055ea6618f", stored);
    call_check(memcmp(slot_of(&now, 1) + 16, stored, 17) == 0,
               "not the known text", &add);

    revise = call_of(REVISE);
    revise.sheet = 120;
    revise.seen = 3;
    revise.text = 2096;
    fill(now.bytes + TEXT_AT, 2096, 123);
    call_check(made(&revise) == LAGUNEDO_DONE, "known answer refused",
               &revise);
    call_check(digest(now.bytes + STORE_AT, revise.store) == 0x5f1772f9,
               "not the known store", &revise);
}

void test_store(void)
{
    uint8_t mark;
    size_t i;

    listed();
    known();
    for (i = 0; i < 8; i++)
        life(key_lengths[i % 4][0], key_lengths[i % 4][1], i >= 4);
    reads();
    adds();
    revises();
    alike();
    repeated();
    for (mark = 0; mark < 3; mark++)
        for (i = 0; i < FLAWS; i++)
            unsound(i, mark);
    sound();
    faults();
    empty(0);
    empty(1);
    largest();
    one_key();
    forged();
}
