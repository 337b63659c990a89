/*
 * The main job of a job server, in small. A store of five slots stands in
 * memory, with a sheet in clear and a sheet under the old key. Two sheets are
 * added, one of them is read and revised, and a revision that comes late is
 * refused. Then the rekeying job brings the whole store under the new key.
 *
 * It ends with status 1 if anything is not as the header says.
 */

#include <stdio.h>
#include <string.h>

#include "lagunedo.h"

enum { SLOTS = 5 };

/* All zeros: every slot is free. */
static uint8_t store[SLOTS * LAGUNEDO_RECORD_SIZE];
static uint8_t old_key[48], new_key[64];
static int good = 1;

/* For show only: the bytes of a true key are random and secret. */
static void make_keys(void)
{
    size_t i;

    for (i = 0; i < sizeof old_key; i++)
        old_key[i] = (uint8_t)i;
    for (i = 0; i < sizeof new_key; i++)
        new_key[i] = (uint8_t)(255 - i);
}

/* Whether the call did its work; a refusal is told with its number. */
static int done(uint32_t number)
{
    if (number != LAGUNEDO_DONE) {
        printf("refused with %u\n", (unsigned)number);
        good = 0;
    }
    return number == LAGUNEDO_DONE;
}

/*
 * What the store held before this library had it: sheet 305 in clear in slot
 * 0, and sheet 306 in slot 1, enciphered under the old key with its lead.
 */
static void found(void)
{
    static const uint8_t clear[LAGUNEDO_LEAD_SIZE] = {
        0x31, 0x01, 0, 0, 2, 0, LAGUNEDO_MARK_CLEAR, 0, 16
    };
    static const uint8_t old[LAGUNEDO_LEAD_SIZE] = {
        0x32, 0x01, 0, 0, 7, 0, LAGUNEDO_MARK_OLD_KEY, 0, 22
    };
    uint8_t *one = store, *two = store + LAGUNEDO_RECORD_SIZE;

    memcpy(one, clear, sizeof clear);
    memcpy(one + LAGUNEDO_LEAD_SIZE, "PRESS 4 HOLD 5AM", 16);
    memcpy(two, old, sizeof old);
    memcpy(two + LAGUNEDO_LEAD_SIZE, "PRESS 1 HEAVY BOARD 3X", 22);
    good &= lagunedo_eme2_encipher(old_key, sizeof old_key, two,
                                   LAGUNEDO_LEAD_SIZE,
                                   two + LAGUNEDO_LEAD_SIZE,
                                   22) == LAGUNEDO_DONE;
}

/* The counts, and whether the two that the job brings to 0 are as said. */
static void check(uint32_t clear_wanted, uint32_t old_wanted)
{
    uint32_t fault, used, free_slots, clear, old, current;
    uint32_t number = lagunedo_check(store, sizeof store, &fault, &used,
                                     &free_slots, &clear, &old, &current);

    printf("check       ");
    if (number == LAGUNEDO_FAULT)
        printf("slot %u is faulty\n", (unsigned)fault);
    else if (done(number))
        printf("used %u free %u clear %u old key %u new key %u\n",
               (unsigned)used, (unsigned)free_slots, (unsigned)clear,
               (unsigned)old, (unsigned)current);
    good &= number == LAGUNEDO_DONE && clear == clear_wanted &&
            old == old_wanted;
}

static void add(uint32_t sheet, const char *text)
{
    uint32_t revision;

    printf("add %u     ", (unsigned)sheet);
    if (done(lagunedo_add(old_key, sizeof old_key, new_key, sizeof new_key,
                          store, sizeof store, sheet, (const uint8_t *)text,
                          strlen(text), &revision)))
        printf("revision %u\n", (unsigned)revision);
}

/* Shows the sheet, and gives the revision that the operator then has seen. */
static uint32_t read_sheet(uint32_t sheet, const char *wanted)
{
    uint8_t text[LAGUNEDO_TEXT_MOST];
    uint32_t length, revision = 0;

    printf("read %u    ", (unsigned)sheet);
    if (done(lagunedo_read(old_key, sizeof old_key, new_key, sizeof new_key,
                           store, sizeof store, sheet, text, sizeof text,
                           &length, &revision))) {
        printf("revision %u: %.*s\n", (unsigned)revision, (int)length,
               (const char *)text);
        good &= length == strlen(wanted) && memcmp(text, wanted, length) == 0;
    }
    return revision;
}

static uint32_t revise(uint32_t sheet, uint32_t seen, const char *text)
{
    uint32_t revision, number;

    printf("revise %u  ", (unsigned)sheet);
    number = lagunedo_revise(old_key, sizeof old_key, new_key, sizeof new_key,
                             store, sizeof store, sheet, seen,
                             (const uint8_t *)text, strlen(text), &revision);
    if (number == LAGUNEDO_OTHER_REVISION)
        printf("refused with %u: revision %u is not the stored one\n",
               (unsigned)number, (unsigned)seen);
    else if (done(number))
        printf("revision %u\n", (unsigned)revision);
    return number;
}

/* The job from place 0 until it is done, one slot a step. */
static void rekey(void)
{
    static const char *const names[] = { "done", "free", "damaged", "already",
                                         "converted" };
    struct lagunedo_job job = { 0 };
    uint32_t outcome;

    do {
        printf("step        place %u ", (unsigned)job.place);
        if (!done(lagunedo_job_step(&job, old_key, sizeof old_key, new_key,
                                    sizeof new_key, store, sizeof store,
                                    &outcome)))
            return;
        printf("%s\n", names[outcome]);
    } while (outcome != LAGUNEDO_STEP_DONE);
}

int main(void)
{
    uint32_t seen;

    make_keys();
    found();
    check(1, 1);

    add(401, "PRESS 2 BLUE, DRY 20 MIN");
    add(402, "PRESS 3 GREY, STACK LOW");

    /* Two operators see the same revision. The second to send is late. */
    seen = read_sheet(401, "PRESS 2 BLUE, DRY 20 MIN");
    good &= revise(401, seen, "PRESS 2 BLUE, DRY 35 MIN") == LAGUNEDO_DONE;
    good &= revise(401, seen, "PRESS 2 RED, DRY 20 MIN") ==
            LAGUNEDO_OTHER_REVISION;
    read_sheet(401, "PRESS 2 BLUE, DRY 35 MIN");

    check(1, 1);
    rekey();
    check(0, 0);
    read_sheet(305, "PRESS 4 HOLD 5AM");
    read_sheet(306, "PRESS 1 HEAVY BOARD 3X");

    if (!good) {
        fprintf(stderr, "example: the library did not do as it says\n");
        return 1;
    }
    return 0;
}
