/*
 * The revision in its two halves, which 02, order 1, has: across 65,535 and up
 * to the last, compared whole, and the bytes of the lead beside them.
 */

#include <string.h>

#include "lent.h"

enum { SLOT = 1, SHEET = 78, LENGTH_STORED = 40 };

static const uint8_t marks[] = { LAGUNEDO_MARK_CLEAR, LAGUNEDO_MARK_OLD_KEY,
                                 LAGUNEDO_MARK_NEW_KEY };

/* Lets a store of three slots hold the sheet at a revision, under a mark. */
static struct sheet hold(uint32_t revision, uint8_t mark)
{
    struct sheet sheet = { SHEET, 0, 0, LENGTH_STORED, 63 };

    sheet.revision = revision;
    sheet.mark = mark;
    lend(48, 64, 3);
    hold_sheet(SLOT, sheet);
    return sheet;
}

static struct call on_sheet(enum call_name name, size_t text)
{
    struct call call = call_of(name);

    call.sheet = SHEET;
    call.text = text;
    return call;
}

static void want_one(uint8_t mark)
{
    wanted.word[USED] = 1;
    wanted.word[FREE] = 2;
    wanted.word[CLEAR] = mark == LAGUNEDO_MARK_CLEAR;
    wanted.word[OLD_KEY] = mark == LAGUNEDO_MARK_OLD_KEY;
    wanted.word[NEW_KEY] = mark == LAGUNEDO_MARK_NEW_KEY;
}

/* The sheet as it stands passes the check and is read back. */
static void found(struct sheet sheet)
{
    struct call check = call_of(CHECK), read = on_sheet(READ, 200);

    want_one(sheet.mark);
    expect(&check, LAGUNEDO_DONE, "checked at its revision");
    hold_text(200, 69);
    want_read(sheet.length, sheet.seed, sheet.revision);
    expect(&read, LAGUNEDO_DONE, "read at its revision");
}

/* The lead byte for byte: the high half stands behind the length. */
static void halves(void)
{
    static const uint8_t lead[LAGUNEDO_LEAD_SIZE] = {
        SHEET, 0, 0, 0, 0x01, 0x02, LAGUNEDO_MARK_NEW_KEY, 0,
        LENGTH_STORED, 0, 0x03, 0x04, 0, 0, 0, 0
    };
    struct sheet sheet = hold(0x04030200u, LAGUNEDO_MARK_CLEAR);
    struct call revise = on_sheet(REVISE, LENGTH_STORED);

    revise.seen = sheet.revision;
    hold_text(LENGTH_STORED, 64);
    call_check(made(&revise) == LAGUNEDO_DONE &&
                   now.word[REVISION] == 0x04030201u &&
                   memcmp(slot_of(&now, SLOT), lead, sizeof lead) == 0,
               "a lead with both halves", &revise);
}

/* Revised from one revision to the next; each is found, and made again 8. */
static void in_a_row(uint32_t first, uint32_t last)
{
    struct sheet sheet = hold(first, LAGUNEDO_MARK_OLD_KEY);
    struct call revise = on_sheet(REVISE, LENGTH_STORED);

    while (sheet.revision != last) {
        revise.seen = sheet.revision++;
        revise.by_address = sheet.revision % 2 == 0;
        sheet.mark = LAGUNEDO_MARK_NEW_KEY;
        sheet.seed++;
        hold_text(LENGTH_STORED, sheet.seed);
        put_sheet(&wanted, SLOT, sheet);
        wanted.word[REVISION] = sheet.revision;
        expect(&revise, LAGUNEDO_DONE, "revised to the next");
        expect(&revise, LAGUNEDO_OTHER_REVISION, "revised again");
        found(sheet);
    }
}

/* A step keeps both halves, in clear and under either key. */
static void rekeyed(uint32_t revision)
{
    size_t i;

    for (i = 0; i < sizeof marks; i++) {
        struct sheet sheet = hold(revision, marks[i]);

        found(sheet);
        sheet.mark = LAGUNEDO_MARK_NEW_KEY;
        put_sheet(&wanted, SLOT, sheet);
        step_at(i % 2 == 0 ? STEP : JOB_STEP, SLOT,
                marks[i] == LAGUNEDO_MARK_NEW_KEY ? LAGUNEDO_STEP_ALREADY
                                                  : LAGUNEDO_STEP_CONVERTED,
                "rekeyed at its revision");
        found(sheet);
    }
}

/* The revision named is compared whole: one half that agrees is not enough. */
static void compared_whole(uint32_t stored)
{
    const uint32_t others[] = {
        0,                   stored - 1,          stored + 1,
        stored << 8,         stored + 65536,      stored - 65536,
        stored & 0xffffu,    stored & ~0xffffu,   stored ^ 0x80000000u,
        stored >> 16,        stored << 16,        stored ^ 0x8000u
    };
    struct call revise;
    size_t i;

    hold(stored, LAGUNEDO_MARK_OLD_KEY);
    revise = on_sheet(REVISE, 45);
    for (i = 0; i < sizeof others / sizeof others[0]; i++)
        if (others[i] != stored) {
            revise.seen = others[i];
            expect(&revise, LAGUNEDO_OTHER_REVISION, "another revision named");
        }
}

/* At 4,294,967,295 there is no next one, however often it is asked for. */
static void last(void)
{
    struct call revise;

    hold(0xffffffffu, LAGUNEDO_MARK_NEW_KEY);
    revise = on_sheet(REVISE, 45);
    revise.seen = 0xffffffffu;
    expect(&revise, LAGUNEDO_LAST_REVISION, "no revision after the last");
    revise.by_address = 1;
    expect(&revise, LAGUNEDO_LAST_REVISION, "no revision after the last");
}

/* Bytes 12 to 15 have to be 0, each of them, whatever the high half is. */
static void behind_the_halves(uint32_t revision, uint8_t mark)
{
    struct call check, read, revise;
    size_t at;

    for (at = LEAD_END; at < LAGUNEDO_LEAD_SIZE; at++) {
        hold(revision, mark);
        hold_byte(SLOT, at, (uint8_t)(at % 2 == 0 ? 1 : 128));
        check = call_of(CHECK);
        read = on_sheet(READ, LAGUNEDO_TEXT_MOST);
        revise = on_sheet(REVISE, 45);
        revise.seen = revision;
        wanted.word[FAULT] = SLOT;
        expect(&check, LAGUNEDO_FAULT, "a byte behind the high half");
        expect(&read, LAGUNEDO_SLOT_UNSOUND, "a byte behind the high half");
        expect(&revise, LAGUNEDO_SLOT_UNSOUND, "a byte behind the high half");
        step_at(STEP, SLOT, LAGUNEDO_STEP_DAMAGED,
                "a byte behind the high half");
    }
}

/* The revision is 0, and unsound, only where both halves are. */
static void no_revision(void)
{
    struct sheet sheet = hold(0x00010000u, LAGUNEDO_MARK_CLEAR);
    struct call check = call_of(CHECK);

    found(sheet);
    hold_byte(SLOT, LEAD_END - 2, 0);
    wanted.word[FAULT] = SLOT;
    expect(&check, LAGUNEDO_FAULT, "both halves 0");
    hold_byte(SLOT, LEAD_END - 1, 1);
    sheet.revision = 0x01000000u;
    found(sheet);
}

void test_revisions(void)
{
    static const uint32_t revisions[] = {
        1,      2,       254,     255,         256,         32768,
        65534,  65535,   65536,   65537,       65538,       131072,
        1u << 24, 0x04030201u, 0x80000000u, 0xfffeffffu, 0xfffffffeu,
        0xffffffffu
    };
    size_t i, k;

    halves();
    in_a_row(65533, 65537);
    in_a_row(0xfffffffcu, 0xffffffffu);
    last();
    for (i = 0; i < sizeof revisions / sizeof revisions[0]; i++) {
        rekeyed(revisions[i]);
        compared_whole(revisions[i]);
        for (k = 0; k < sizeof marks; k++)
            behind_the_halves(revisions[i], marks[k]);
    }
    no_revision();
}
