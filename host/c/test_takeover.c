/*
 * Taking over: conversions where they do their work. What is stored is what
 * an add of the text would store, the unit is kept, and a conversion made
 * again is refused. Their refusals, in every choice, are in test_refusals.c.
 */

#include <string.h>

#include "lent.h"

static const uint64_t numbers[] = { 0, 255, 1ull << 32, ~0ull };

/* A conversion of a text of this length to a sheet. */
static struct call conversion(uint32_t sheet, size_t length, size_t xts_key,
                              uint64_t number)
{
    struct call call = call_of(ADD_XTS);

    call.sheet = sheet;
    call.text = length;
    call.xts_key = xts_key;
    call.number = number;
    return call;
}

/*
 * Into the lowest free slot, of noise or of zeros, beside a sheet; made again;
 * read; removed, and made once more.
 */
static void taken_over(size_t length, size_t xts_key, uint64_t number)
{
    struct sheet first = { 7, 3, LAGUNEDO_MARK_CLEAR, 16, 51 };
    struct sheet taken = { 305, 1, LAGUNEDO_MARK_NEW_KEY, 0, 52 };
    struct call convert, read, remove;
    size_t at;

    lend(48, 64, 3);
    hold_sheet(0, first);
    for (at = 4; at < LAGUNEDO_RECORD_SIZE; at++)
        hold_byte(1, at, (uint8_t)(at | 1));
    convert = conversion(305, length, xts_key, number);
    convert.by_address = length % 2 == 0;
    taken.length = length;
    hold_unit(&convert, taken.seed);
    put_sheet(&wanted, 1, taken);
    wanted.word[REVISION] = 1;
    expect(&convert, LAGUNEDO_DONE, "taken over");
    expect(&convert, LAGUNEDO_SHEET_PRESENT, "taken over again");

    read = call_of(READ);
    read.sheet = 305;
    read.text = length;
    want_read(length, taken.seed, 1);
    expect(&read, LAGUNEDO_DONE, "read after it was taken over");

    remove = call_of(REMOVE);
    remove.sheet = 305;
    memset(slot_of(&wanted, 1), 0, LAGUNEDO_RECORD_SIZE);
    expect(&remove, LAGUNEDO_DONE, "removed");
    hold_unit(&convert, taken.seed);
    put_sheet(&wanted, 1, taken);
    convert.by_address = !convert.by_address;
    expect(&convert, LAGUNEDO_DONE, "taken over once more");
}

/*
 * What is wrong is put right one by one, in the order of the refusals; until
 * then nothing changes, the unit least of all.
 */
static void in_order(void)
{
    struct sheet there = { 7, 3, LAGUNEDO_MARK_OLD_KEY, 40, 53 };
    struct sheet taken = { 305, 1, LAGUNEDO_MARK_NEW_KEY, 2096, 54 };
    struct call convert;

    lend(48, 64, 2);
    hold_sheet(0, there);
    there.number = 8;
    hold_sheet(1, there);
    convert = conversion(0, 15, 48, 9);
    convert.old_key = 47;
    convert.store -= 1;
    expect(&convert, LAGUNEDO_XTS_KEY_LENGTH, "in order, 15");
    convert.xts_key = 32;
    expect(&convert, LAGUNEDO_UNIT_LENGTH, "in order, 16");
    convert.text = 65537;
    expect(&convert, LAGUNEDO_UNIT_LENGTH, "in order, 16 above");
    convert.text = 2097;
    expect(&convert, LAGUNEDO_KEY_LENGTH, "in order, 1");
    convert.old_key = 48;
    expect(&convert, LAGUNEDO_STORE_LENGTH, "in order, 4");
    convert.store += 1;
    expect(&convert, LAGUNEDO_SHEET_ZERO, "in order, 5");
    convert.sheet = 7;
    expect(&convert, LAGUNEDO_TEXT_LENGTH, "in order, 6");
    convert.text = 65536;
    expect(&convert, LAGUNEDO_TEXT_LENGTH, "in order, 6 at the longest");
    convert.text = 2096;
    hold_unit(&convert, taken.seed);
    expect(&convert, LAGUNEDO_SHEET_PRESENT, "in order, 11");
    convert.sheet = 305;
    expect(&convert, LAGUNEDO_NO_FREE_SLOT, "in order, 10");
    memset(slot_of(&now, 1), 0, LAGUNEDO_RECORD_SIZE);
    put_sheet(&wanted, 1, taken);
    wanted.word[REVISION] = 1;
    expect(&convert, LAGUNEDO_DONE, "in order, done");
}

void test_takeover(void)
{
    static const size_t lengths[] = { 16, 17, 31, 32, 33, 48, 2095, 2096 };
    size_t i, k;

    for (i = 0; i < sizeof lengths / sizeof lengths[0]; i++)
        for (k = 0; k < sizeof numbers / sizeof numbers[0]; k++) {
            taken_over(lengths[i], 32, numbers[k]);
            taken_over(lengths[i], 64, numbers[k]);
        }
    in_order();
}
