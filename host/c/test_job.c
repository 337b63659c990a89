/*
 * The rekeying job: each outcome of a step, by lagunedo_step and by
 * lagunedo_job_step, and whole jobs, two copies of them interleaved with one
 * another and with the other calls.
 */

#include <string.h>

#include "lent.h"

enum { SLOTS = 14, COPIES = 2 };

/* At or past the number of slots, however far. */
static void past_the_end(enum call_name name)
{
    static const uint64_t far[] = { 4, 5, 1024, 65536, UINT64_C(1) << 32,
                                    UINT64_C(1) << 48,
                                    UINT64_C(0x100000001),
                                    UINT64_C(0x8000000000000000),
                                    UINT64_MAX - 1, UINT64_MAX };
    struct sheet sheet = { 1, 1, LAGUNEDO_MARK_OLD_KEY, 20, 301 };
    size_t i;

    lend(48, 64, 4);
    for (i = 0; i < 4; i++) {
        sheet.number++;
        hold_sheet(i, sheet);
    }
    for (i = 0; i < sizeof far / sizeof far[0]; i++) {
        step_at(name, far[i], LAGUNEDO_STEP_DONE, "past the last slot");
        step_at(name, far[i], LAGUNEDO_STEP_DONE, "past it again");
    }
    lend(64, 64, 0);
    for (i = 0; i < sizeof far / sizeof far[0]; i++)
        step_at(name, far[i], LAGUNEDO_STEP_DONE, "an empty store");
    step_at(name, 0, LAGUNEDO_STEP_DONE, "an empty store, done at once");
    step_at(name, 1, LAGUNEDO_STEP_DONE, "an empty store");
}

/* Every mark, key length and edge of the text length. */
static void convert(enum call_name name, struct sheet sheet, size_t old_key,
                    size_t new_key)
{
    uint8_t mark = sheet.mark;

    lend(old_key, new_key, 3);
    hold_sheet(1, sheet);
    sheet.number++;
    hold_sheet(2, sheet);
    sheet.number--;

    sheet.mark = LAGUNEDO_MARK_NEW_KEY;
    put_sheet(&wanted, 1, sheet);
    step_at(name, 1,
            mark == LAGUNEDO_MARK_NEW_KEY ? LAGUNEDO_STEP_ALREADY
                                          : LAGUNEDO_STEP_CONVERTED,
            "a sound slot");
    step_at(name, 1, LAGUNEDO_STEP_ALREADY, "a place put back");
    step_at(name, 0, LAGUNEDO_STEP_FREE, "a free slot");
}

static void converts(enum call_name name)
{
    static const size_t lengths[] = { 16, 17, 48, 2064, 2065, 2096 };
    static const uint32_t revisions[] = { 1,     2,     255,
                                          65535, 65536, 0xffffffffu };
    struct sheet sheet = { 0x80000001u, 0, 0, 0, 302 };
    size_t i, k;

    for (i = 0; i < sizeof lengths / sizeof lengths[0]; i++)
        for (k = 0; k < 4; k++)
            for (sheet.mark = 0; sheet.mark < 3; sheet.mark++) {
                sheet.length = lengths[i];
                sheet.revision = revisions[i];
                convert(name, sheet, k & 1 ? 48 : 64, k & 2 ? 48 : 64);
            }
}

/* A used and unsound slot is kept, whatever its mark. */
static void damaged(enum call_name name)
{
    struct sheet sheet = { 310, 300, 0, 40, 303 };
    size_t i;

    for (sheet.mark = 0; sheet.mark < 3; sheet.mark++)
        for (i = 0; i < FLAWS; i++) {
            lend(48, 48, 3);
            hold_sheet(1, sheet);
            flaw(1, i);
            step_at(name, 1, LAGUNEDO_STEP_DAMAGED, "a damaged slot");
        }
}

/* Sheet number 0 is free, whatever else the slot holds. */
static void odd_free(enum call_name name)
{
    static const size_t places[] = { 4, 6, 7, 8, 15, 16, 2111 };
    size_t i;

    for (i = 0; i < sizeof places / sizeof places[0]; i++) {
        lend(48, 48, 3);
        hold_byte(1, places[i], 1);
        step_at(name, 1, LAGUNEDO_STEP_FREE, "a free slot with a byte set");
    }
}

/* The last of the most slots that a store may have. */
static void last_slot(enum call_name name)
{
    struct sheet sheet = { 320, 5, LAGUNEDO_MARK_OLD_KEY, 2096, 304 };

    lend(64, 48, 1024);
    hold_sheet(1022, sheet);
    sheet.number = 321;
    hold_sheet(1023, sheet);
    sheet.mark = LAGUNEDO_MARK_NEW_KEY;
    put_sheet(&wanted, 1023, sheet);
    step_at(name, 1023, LAGUNEDO_STEP_CONVERTED, "the last of 1,024 slots");
    step_at(name, 1024, LAGUNEDO_STEP_DONE, "past 1,024 slots");
    step_at(name, 1021, LAGUNEDO_STEP_FREE, "the third from the last");
}

/*
 * The store of the whole jobs. Slots 1 and 4 are free; 6, 8 and 11 are made
 * unsound, one of each mark; slot 9 has sheet number 0 and a byte set; slot
 * 12 repeats the number of slot 2.
 */
static const struct sheet sheets[SLOTS] = {
    { 400, 3, LAGUNEDO_MARK_OLD_KEY, 2096, 401 },
    { 0, 0, 0, 0, 0 },
    { 402, 1, LAGUNEDO_MARK_CLEAR, 16, 402 },
    { 403, 0xffffffffu, LAGUNEDO_MARK_OLD_KEY, 17, 403 },
    { 0, 0, 0, 0, 0 },
    { 405, 9, LAGUNEDO_MARK_NEW_KEY, 100, 405 },
    { 406, 2, LAGUNEDO_MARK_OLD_KEY, 40, 406 },
    { 407, 65535, LAGUNEDO_MARK_CLEAR, 2095, 407 },
    { 408, 4, LAGUNEDO_MARK_NEW_KEY, 40, 408 },
    { 0, 0, 0, 0, 0 },
    { 410, 256, LAGUNEDO_MARK_OLD_KEY, 64, 410 },
    { 411, 5, LAGUNEDO_MARK_CLEAR, 40, 411 },
    { 402, 7, LAGUNEDO_MARK_OLD_KEY, 31, 412 },
    { 413, 8, LAGUNEDO_MARK_OLD_KEY, 33, 413 }
};

static int is_flawed(size_t slot)
{
    return slot == 6 || slot == 8 || slot == 11;
}

/* What a step at the slot answers when no copy was there before. */
static uint32_t first_outcome(size_t slot, int flawed)
{
    if (sheets[slot].number == 0)
        return LAGUNEDO_STEP_FREE;
    if (flawed && is_flawed(slot))
        return LAGUNEDO_STEP_DAMAGED;
    if (sheets[slot].mark == LAGUNEDO_MARK_NEW_KEY)
        return LAGUNEDO_STEP_ALREADY;
    return LAGUNEDO_STEP_CONVERTED;
}

static void hold_sheets(int flawed)
{
    size_t slot;

    lend(48, 64, SLOTS);
    for (slot = 0; slot < SLOTS; slot++) {
        if (sheets[slot].number != 0)
            hold_sheet(slot, sheets[slot]);
        if (flawed && is_flawed(slot))
            flaw(slot, slot);
    }
    if (flawed) {
        hold_byte(9, 2000, 77);
    } else {
        struct sheet other = sheets[12];

        other.number = 412;
        hold_sheet(12, other);
    }
}

/* One step of one copy, with all memory as it should be afterwards. */
static void copy_steps(enum call_name name, uint64_t *place, int *converted,
                       int flawed)
{
    uint32_t outcome = LAGUNEDO_STEP_DONE;

    if (*place < SLOTS) {
        size_t slot = (size_t)*place;

        outcome = first_outcome(slot, flawed);
        if (outcome == LAGUNEDO_STEP_CONVERTED) {
            struct sheet sheet = sheets[slot];

            if (converted[slot])
                outcome = LAGUNEDO_STEP_ALREADY;
            if (slot == 12 && !flawed)
                sheet.number = 412;
            sheet.mark = LAGUNEDO_MARK_NEW_KEY;
            put_sheet(&wanted, slot, sheet);
            converted[slot] = 1;
        }
    }
    step_at(name, *place, outcome, "two copies interleaved");
    *place = now.job[JOB].place;
}

/*
 * Two copies of the job, each from place 0, take their steps in turns that
 * the bits of the pattern choose.
 */
static void two_copies(uint32_t pattern, int flawed)
{
    uint64_t place[COPIES] = { 0, 0 };
    int converted[SLOTS] = { 0 };
    struct call check;
    size_t turn, copy;

    hold_sheets(flawed);
    check = call_of(CHECK);
    if (flawed) {
        wanted.word[FAULT] = 6;
        expect(&check, LAGUNEDO_FAULT, "before the job");
    } else {
        wanted.word[USED] = 11;
        wanted.word[FREE] = 3;
        wanted.word[CLEAR] = 3;
        wanted.word[OLD_KEY] = 6;
        wanted.word[NEW_KEY] = 2;
        expect(&check, LAGUNEDO_DONE, "before the job");
    }

    for (turn = 0; place[0] < SLOTS || place[1] < SLOTS; turn++) {
        copy = (pattern >> (turn % 32)) & 1u;
        if (place[copy] == SLOTS) {
            /* Done, and done again each time it is asked. */
            copy_steps(STEP, &place[copy], converted, flawed);
            copy = 1 - copy;
        }
        copy_steps(copy == 0 ? STEP : JOB_STEP, &place[copy], converted,
                   flawed);
    }

    if (flawed) {
        expect(&check, LAGUNEDO_FAULT, "after the job");
    } else {
        wanted.word[CLEAR] = 0;
        wanted.word[OLD_KEY] = 0;
        wanted.word[NEW_KEY] = 11;
        expect(&check, LAGUNEDO_DONE, "after the job");
    }
}

/* What every sheet reads as is the same before and after the job. */
static void reads_alike(void)
{
    struct call read;
    size_t slot;

    read = call_of(READ);
    read.text = LAGUNEDO_TEXT_MOST;
    for (slot = 0; slot < SLOTS - 2; slot++) {
        if (sheets[slot].number == 0)
            continue;
        read.sheet = sheets[slot].number;
        if (!is_flawed(slot)) {
            fill(wanted.bytes + TEXT_AT, sheets[slot].length,
                 sheets[slot].seed);
            wanted.word[LENGTH] = (uint32_t)sheets[slot].length;
            wanted.word[REVISION] = sheets[slot].revision;
        }
        expect(&read,
               is_flawed(slot) ? LAGUNEDO_SLOT_UNSOUND : LAGUNEDO_DONE,
               "read around the job");
    }
}

/* The job, then the damaged slots removed until check finds no fault. */
static void mended(void)
{
    static const uint32_t removed[] = { 406, 408, 411, 402 };
    struct sheet added = { 500, 1, LAGUNEDO_MARK_NEW_KEY, 50, 501 };
    struct call check, remove, add;
    size_t i;

    two_copies(0x55555555u, 1);
    reads_alike();
    check = call_of(CHECK);
    remove = call_of(REMOVE);
    add = call_of(ADD);
    for (i = 0; i < 4; i++) {
        static const size_t slots[] = { 6, 8, 11, 2 };

        remove.sheet = removed[i];
        memset(slot_of(&wanted, slots[i]), 0, LAGUNEDO_RECORD_SIZE);
        expect(&remove, LAGUNEDO_DONE, "a damaged slot removed");
    }
    wanted.word[FAULT] = 9;
    expect(&check, LAGUNEDO_FAULT, "the free slot with a byte set");

    /* Slots 1, 2, 4, 6 and 8 are lower; the sixth add fills slot 9. */
    add.text = 50;
    hold_text(50, 501);
    wanted.word[REVISION] = 1;
    for (i = 0; i < 6; i++) {
        static const size_t slots[] = { 1, 2, 4, 6, 8, 9 };

        add.sheet = added.number = (uint32_t)(500 + i);
        put_sheet(&wanted, slots[i], added);
        expect(&add, LAGUNEDO_DONE, "added after the job");
    }
    wanted.word[USED] = 13;
    wanted.word[FREE] = 1;
    wanted.word[CLEAR] = 0;
    wanted.word[OLD_KEY] = 0;
    wanted.word[NEW_KEY] = 13;
    expect(&check, LAGUNEDO_DONE, "no fault left");
}

/*
 * Between the steps of a job a sheet ahead of it and one behind it are
 * revised, one behind it is removed, and one is added in its place. A removal
 * moves no slot, so the place goes on by one.
 */
static void among_calls(void)
{
    struct sheet old = { 0, 1, LAGUNEDO_MARK_OLD_KEY, 40, 0 };
    struct sheet fresh = { 0, 2, LAGUNEDO_MARK_NEW_KEY, 20, 610 };
    struct call check, add, revise, remove;
    uint32_t i;

    lend(64, 48, 5);
    for (i = 0; i < 5; i++) {
        old.number = 600 + i;
        old.seed = 600 + i;
        hold_sheet(i, old);
    }
    check = call_of(CHECK);
    add = call_of(ADD);
    revise = call_of(REVISE);
    remove = call_of(REMOVE);
    revise.seen = 1;
    add.text = revise.text = 20;
    hold_text(20, 610);

    old.mark = LAGUNEDO_MARK_NEW_KEY;
    for (i = 0; i < 2; i++) {
        old.number = 600 + i;
        old.seed = 600 + i;
        put_sheet(&wanted, i, old);
        step_at(JOB_STEP, i, LAGUNEDO_STEP_CONVERTED, "among calls");
    }

    wanted.word[REVISION] = 2;
    revise.sheet = fresh.number = 600;
    put_sheet(&wanted, 0, fresh);
    expect(&revise, LAGUNEDO_DONE, "revised behind the job");
    revise.sheet = fresh.number = 603;
    put_sheet(&wanted, 3, fresh);
    expect(&revise, LAGUNEDO_DONE, "revised ahead of the job");
    remove.sheet = 601;
    memset(slot_of(&wanted, 1), 0, LAGUNEDO_RECORD_SIZE);
    expect(&remove, LAGUNEDO_DONE, "removed behind the job");
    remove.sheet = 602;
    memset(slot_of(&wanted, 2), 0, LAGUNEDO_RECORD_SIZE);
    expect(&remove, LAGUNEDO_DONE, "removed at the job's place");
    add.sheet = fresh.number = 605;
    fresh.revision = 1;
    put_sheet(&wanted, 1, fresh);
    wanted.word[REVISION] = 1;
    expect(&add, LAGUNEDO_DONE, "added behind the job");

    step_at(JOB_STEP, 2, LAGUNEDO_STEP_FREE, "removed at the place");
    step_at(JOB_STEP, 3, LAGUNEDO_STEP_ALREADY, "revised ahead");
    old.number = old.seed = 604;
    put_sheet(&wanted, 4, old);
    step_at(JOB_STEP, 4, LAGUNEDO_STEP_CONVERTED, "the last slot");
    step_at(JOB_STEP, 5, LAGUNEDO_STEP_DONE, "the job is done");
    wanted.word[USED] = 4;
    wanted.word[FREE] = 1;
    wanted.word[CLEAR] = 0;
    wanted.word[OLD_KEY] = 0;
    wanted.word[NEW_KEY] = 4;
    expect(&check, LAGUNEDO_DONE, "after the job");
}

void test_job(void)
{
    static const uint32_t patterns[] = { 0x00000000u, 0xffffffffu,
                                         0x55555555u, 0xcccccccbu,
                                         0x0000ffffu, 0x9e3779b9u,
                                         0xfffff000u };
    size_t i;
    int name;

    for (name = STEP; name <= JOB_STEP; name++) {
        past_the_end((enum call_name)name);
        converts((enum call_name)name);
        damaged((enum call_name)name);
        odd_free((enum call_name)name);
        last_slot((enum call_name)name);
    }
    for (i = 0; i < sizeof patterns / sizeof patterns[0]; i++) {
        two_copies(patterns[i], 0);
        two_copies(patterns[i], 1);
    }
    mended();
    among_calls();
}
