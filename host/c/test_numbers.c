/*
 * The numbers, names and sizes of the header, beside those of 01 and 02,
 * which are typed here once more: the header's own tables cannot tell that one
 * of their rows was changed.
 */

#include <stdio.h>
#include <string.h>

#include "check.h"
#include "lagunedo.h"

static const struct {
    uint32_t number;
    const char *name;
} numbers[] = {
    { 0, "DONE" },           { 1, "KEY_LENGTH" },
    { 2, "MESSAGE_LENGTH" }, { 3, "DATA_LENGTH" },
    { 4, "STORE_LENGTH" },   { 5, "SHEET_ZERO" },
    { 6, "TEXT_LENGTH" },    { 7, "NO_SHEET" },
    { 8, "OTHER_REVISION" }, { 9, "LAST_REVISION" },
    { 10, "NO_FREE_SLOT" },  { 11, "SHEET_PRESENT" },
    { 12, "SLOT_UNSOUND" },  { 13, "BUFFER_LENGTH" },
    { 14, "LENGTH_CHANGED" }, { 15, "XTS_KEY_LENGTH" },
    { 16, "UNIT_LENGTH" },   { 17, "BLOCK_NOT_ALONE" },
    { 256, "FAULT" }
};

static const struct {
    uint32_t found, wanted;
} sizes[] = {
    { LAGUNEDO_BLOCK_SIZE, 16 },    { LAGUNEDO_AES_KEY_128, 16 },
    { LAGUNEDO_AES_KEY_256, 32 },   { LAGUNEDO_EME2_KEY_128, 48 },
    { LAGUNEDO_EME2_KEY_256, 64 },  { LAGUNEDO_MESSAGE_LEAST, 16 },
    { LAGUNEDO_MESSAGE_MOST, 65536 }, { LAGUNEDO_DATA_MOST, 1024 },
    { LAGUNEDO_RECORD_SIZE, 2112 }, { LAGUNEDO_LEAD_SIZE, 16 },
    { LAGUNEDO_TEXT_LEAST, 16 },    { LAGUNEDO_TEXT_MOST, 2096 },
    { LAGUNEDO_SLOT_LIMIT, 1024 },  { LAGUNEDO_XTS_KEY_128, 32 },
    { LAGUNEDO_XTS_KEY_256, 64 },   { LAGUNEDO_UNIT_LEAST, 16 },
    { LAGUNEDO_UNIT_MOST, 65536 },  { LAGUNEDO_MARK_CLEAR, 0 },
    { LAGUNEDO_MARK_OLD_KEY, 1 },   { LAGUNEDO_MARK_NEW_KEY, 2 },
    { LAGUNEDO_STEP_DONE, 0 },      { LAGUNEDO_STEP_FREE, 1 },
    { LAGUNEDO_STEP_DAMAGED, 2 },   { LAGUNEDO_STEP_ALREADY, 3 },
    { LAGUNEDO_STEP_CONVERTED, 4 }
};

enum { NUMBERS = sizeof numbers / sizeof *numbers };

/* The name of a number without its prefix; "?" if it is none. */
static const char *wanted_name(uint32_t number)
{
    size_t i;

    for (i = 0; i < NUMBERS; i++)
        if (numbers[i].number == number)
            return numbers[i].name;
    return "?";
}

/* Every number has its own name and words, and no other number has any. */
static void check_number(uint32_t number)
{
    const char *wanted = wanted_name(number), *found = lagunedo_name(number);
    int known = strcmp(wanted, "?") != 0;
    int prefixed = strncmp(found, "LAGUNEDO_", 9) == 0;

    if (!counted(prefixed == known &&
                 strcmp(known ? found + 9 : found, wanted) == 0))
        fprintf(stderr, "numbers: %u has the name %s\n", (unsigned)number,
                found);
    if (!counted((strcmp(lagunedo_meaning(number), lagunedo_meaning(~0u)) !=
                  0) == known))
        fprintf(stderr, "numbers: %u means: %s\n", (unsigned)number,
                lagunedo_meaning(number));
}

void test_numbers(void)
{
    size_t i;
    uint32_t number;

    for (number = 0; number <= 300; number++)
        check_number(number);
    check_number(256 + 65536);
    for (i = 0; i < sizeof sizes / sizeof *sizes; i++)
        if (!counted(sizes[i].found == sizes[i].wanted))
            fprintf(stderr, "numbers: a size is %u and not %u\n",
                    (unsigned)sizes[i].found, (unsigned)sizes[i].wanted);
}
