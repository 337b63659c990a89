/*
 * The memory lent to the store's calls, and the calls made on it.
 */

#include <stdio.h>
#include <string.h>

#include "lent.h"

struct room now, wanted;

/* What lend was given, and how many bytes of a room are compared. */
static size_t lent_old, lent_new, lent_store, compared;

static const char *const call_names[CALLS] = { "check",    "read",
                                               "add",      "revise",
                                               "remove",   "step",
                                               "job_step", "add_xts" };

void lend(size_t old_key, size_t new_key, size_t slots)
{
    size_t i;

    lent_old = old_key;
    lent_new = new_key;
    lent_store = slots * LAGUNEDO_RECORD_SIZE;
    compared = STORE_AT + lent_store + GUARD;

    fill(now.bytes, compared, 11);
    for (i = 0; i < WORDS; i++)
        now.word[i] = (uint32_t)(0xa0a0a0a0u + i);
    for (i = 0; i < JOBS; i++)
        now.job[i].place = 0xb0b0b0b0b0b0b0b0u + i;
    memset(now.bytes + STORE_AT, 0, lent_store);

    memcpy(wanted.bytes, now.bytes, compared);
    memcpy(wanted.word, now.word, sizeof now.word);
    memcpy(wanted.job, now.job, sizeof now.job);
}

struct call call_of(enum call_name name)
{
    struct call call = { CHECK, 0, 0, 0, 0, 0, 64, 0, 0, 0 };

    call.name = name;
    call.old_key = lent_old;
    call.new_key = lent_new;
    call.store = lent_store;
    return call;
}

uint8_t *slot_of(struct room *room, size_t slot)
{
    return room->bytes + STORE_AT + slot * LAGUNEDO_RECORD_SIZE;
}

void put_sheet(struct room *room, size_t slot, struct sheet sheet)
{
    uint8_t *record = slot_of(room, slot);
    struct lead lead = { sheet.number, sheet.revision, sheet.mark,
                         (uint32_t)sheet.length };

    memset(record, 0, LAGUNEDO_RECORD_SIZE);
    lead_write(record, lead);
    fill(record + LAGUNEDO_LEAD_SIZE, sheet.length, sheet.seed);
    if (sheet.mark == LAGUNEDO_MARK_OLD_KEY)
        lagunedo_eme2_encipher(room->bytes + OLD_AT, lent_old, record, 16,
                               record + LAGUNEDO_LEAD_SIZE, sheet.length);
    if (sheet.mark == LAGUNEDO_MARK_NEW_KEY)
        lagunedo_eme2_encipher(room->bytes + NEW_AT, lent_new, record, 16,
                               record + LAGUNEDO_LEAD_SIZE, sheet.length);
}

void hold_sheet(size_t slot, struct sheet sheet)
{
    put_sheet(&now, slot, sheet);
    memcpy(slot_of(&wanted, slot), slot_of(&now, slot), LAGUNEDO_RECORD_SIZE);
}

void hold_lead(size_t slot, struct lead lead)
{
    lead_write(slot_of(&now, slot), lead);
    lead_write(slot_of(&wanted, slot), lead);
}

void hold_byte(size_t slot, size_t at, uint8_t byte)
{
    slot_of(&now, slot)[at] = byte;
    slot_of(&wanted, slot)[at] = byte;
}

void hold_text(size_t length, uint32_t seed)
{
    fill(now.bytes + TEXT_AT, length, seed);
    fill(wanted.bytes + TEXT_AT, length, seed);
}

void hold_unit(const struct call *call, uint32_t seed)
{
    uint8_t *unit = now.bytes + TEXT_AT;

    fill(unit, call->text, seed);
    lagunedo_xts_encipher(now.bytes + XTS_AT, call->xts_key, call->number,
                          unit, call->text);
    memcpy(wanted.bytes + TEXT_AT, unit, call->text);
}

static uint8_t *null_if_empty(size_t at, size_t length)
{
    return length == 0 ? NULL : now.bytes + at;
}

static uint32_t made_by_name(const struct call *c)
{
    const uint8_t *old_key = null_if_empty(OLD_AT, c->old_key);
    const uint8_t *new_key = null_if_empty(NEW_AT, c->new_key);
    const uint8_t *xts_key = null_if_empty(XTS_AT, c->xts_key);
    uint8_t *store = null_if_empty(STORE_AT, c->store);
    uint8_t *text = null_if_empty(TEXT_AT, c->text);
    uint32_t *word = now.word;
    struct lagunedo_job *job = &now.job[JOB];

    switch (c->name) {
    case CHECK:
        return lagunedo_check(store, c->store, &word[FAULT], &word[USED],
                              &word[FREE], &word[CLEAR], &word[OLD_KEY],
                              &word[NEW_KEY]);
    case READ:
        return lagunedo_read(old_key, c->old_key, new_key, c->new_key, store,
                             c->store, c->sheet, text, c->text,
                             &word[LENGTH], &word[REVISION]);
    case ADD:
        return lagunedo_add(old_key, c->old_key, new_key, c->new_key, store,
                            c->store, c->sheet, text, c->text,
                            &word[REVISION]);
    case REVISE:
        return lagunedo_revise(old_key, c->old_key, new_key, c->new_key,
                               store, c->store, c->sheet, c->seen, text,
                               c->text, &word[REVISION]);
    case REMOVE:
        return lagunedo_remove(store, c->store, c->sheet);
    case STEP:
        return lagunedo_step(old_key, c->old_key, new_key, c->new_key, store,
                             c->store, &job->place, &word[OUTCOME]);
    case ADD_XTS:
        return lagunedo_add_xts(xts_key, c->xts_key, c->number, text, c->text,
                                old_key, c->old_key, new_key, c->new_key,
                                store, c->store, c->sheet, &word[REVISION]);
    default:
        return lagunedo_job_step(job, old_key, c->old_key, new_key,
                                 c->new_key, store, c->store,
                                 &word[OUTCOME]);
    }
}

/* The library's own functions, past the header's macros. */
static uint32_t (*const own_check)(const uint8_t *, size_t, uint32_t *,
                                   uint32_t *, uint32_t *, uint32_t *,
                                   uint32_t *, uint32_t *) = lagunedo_check;
static uint32_t (*const own_read)(const uint8_t *, size_t, const uint8_t *,
                                  size_t, const uint8_t *, size_t, uint32_t,
                                  uint8_t *, size_t, uint32_t *,
                                  uint32_t *) = lagunedo_read;
static uint32_t (*const own_add)(const uint8_t *, size_t, const uint8_t *,
                                 size_t, uint8_t *, size_t, uint32_t,
                                 const uint8_t *, size_t,
                                 uint32_t *) = lagunedo_add;
static uint32_t (*const own_revise)(const uint8_t *, size_t, const uint8_t *,
                                    size_t, uint8_t *, size_t, uint32_t,
                                    uint32_t, const uint8_t *, size_t,
                                    uint32_t *) = lagunedo_revise;
static uint32_t (*const own_remove)(uint8_t *, size_t,
                                    uint32_t) = lagunedo_remove;
static uint32_t (*const own_step)(const uint8_t *, size_t, const uint8_t *,
                                  size_t, uint8_t *, size_t, uint64_t *,
                                  uint32_t *) = lagunedo_step;
static uint32_t (*const own_job_step)(struct lagunedo_job *, const uint8_t *,
                                      size_t, const uint8_t *, size_t,
                                      uint8_t *, size_t,
                                      uint32_t *) = lagunedo_job_step;
static uint32_t (*const own_add_xts)(const uint8_t *, size_t, uint64_t,
                                     const uint8_t *, size_t, const uint8_t *,
                                     size_t, const uint8_t *, size_t,
                                     uint8_t *, size_t, uint32_t,
                                     uint32_t *) = lagunedo_add_xts;

static uint32_t made_by_address(const struct call *c)
{
    const uint8_t *old_key = now.bytes + OLD_AT;
    const uint8_t *new_key = now.bytes + NEW_AT;
    uint8_t *store = now.bytes + STORE_AT;
    uint8_t *text = now.bytes + TEXT_AT;
    uint32_t *word = now.word;
    struct lagunedo_job *job = &now.job[JOB];

    switch (c->name) {
    case CHECK:
        return own_check(store, c->store, &word[FAULT], &word[USED],
                         &word[FREE], &word[CLEAR], &word[OLD_KEY],
                         &word[NEW_KEY]);
    case READ:
        return own_read(old_key, c->old_key, new_key, c->new_key, store,
                        c->store, c->sheet, text, c->text, &word[LENGTH],
                        &word[REVISION]);
    case ADD:
        return own_add(old_key, c->old_key, new_key, c->new_key, store,
                       c->store, c->sheet, text, c->text, &word[REVISION]);
    case REVISE:
        return own_revise(old_key, c->old_key, new_key, c->new_key, store,
                          c->store, c->sheet, c->seen, text, c->text,
                          &word[REVISION]);
    case REMOVE:
        return own_remove(store, c->store, c->sheet);
    case STEP:
        return own_step(old_key, c->old_key, new_key, c->new_key, store,
                        c->store, &job->place, &word[OUTCOME]);
    case ADD_XTS:
        return own_add_xts(now.bytes + XTS_AT, c->xts_key, c->number, text,
                           c->text, old_key, c->old_key, new_key, c->new_key,
                           store, c->store, c->sheet, &word[REVISION]);
    default:
        return own_job_step(job, old_key, c->old_key, new_key, c->new_key,
                            store, c->store, &word[OUTCOME]);
    }
}

uint32_t made(const struct call *call)
{
    return call->by_address ? made_by_address(call) : made_by_name(call);
}

void call_check(int holds, const char *what, const struct call *c)
{
    if (!counted(holds))
        fprintf(stderr, "c: %s: %s%s, keys of %lu and %lu bytes, store of "
                "%lu, text of %lu, sheet %lu, seen %lu, place now %lu\n",
                what, call_names[c->name], c->by_address ? " by address" : "",
                (unsigned long)c->old_key, (unsigned long)c->new_key,
                (unsigned long)c->store, (unsigned long)c->text,
                (unsigned long)c->sheet, (unsigned long)c->seen,
                (unsigned long)now.job[JOB].place);
}

static int as_wanted(void)
{
    return memcmp(now.word, wanted.word, sizeof now.word) == 0 &&
           memcmp(now.job, wanted.job, sizeof now.job) == 0 &&
           memcmp(now.bytes, wanted.bytes, compared) == 0;
}

void expect(const struct call *call, uint32_t number, const char *what)
{
    call_check(made(call) == number, what, call);
    call_check(as_wanted(), what, call);
    memcpy(now.word, wanted.word, sizeof now.word);
    memcpy(now.job, wanted.job, sizeof now.job);
    memcpy(now.bytes, wanted.bytes, compared);
}

void want_read(size_t length, uint32_t seed, uint32_t revision)
{
    fill(wanted.bytes + TEXT_AT, length, seed);
    wanted.word[LENGTH] = (uint32_t)length;
    wanted.word[REVISION] = revision;
}

void step_at(enum call_name name, uint64_t place, uint32_t outcome,
             const char *what)
{
    struct call step = call_of(name);

    now.job[JOB].place = wanted.job[JOB].place = place;
    step.by_address = place % 2 == 0;
    wanted.word[OUTCOME] = outcome;
    if (outcome != LAGUNEDO_STEP_DONE)
        wanted.job[JOB].place = place + 1;
    expect(&step, LAGUNEDO_DONE, what);
}

/* The text of the slot ends here, and every byte behind it is 0. */
static void cut(size_t slot, size_t length)
{
    size_t at;

    for (at = LAGUNEDO_LEAD_SIZE + length; at < LAGUNEDO_RECORD_SIZE; at++)
        hold_byte(slot, at, 0);
}

/* A field out of its range. */
static void flaw_field(size_t slot, size_t which)
{
    static const uint32_t lengths[] = {
        0,     /* no text, and zeros in its place */
        15,    /* one byte short, and zeros behind it */
        2097,  /* one byte long */
        65535, /* the longest that can be written */
        39     /* the text's last byte now behind it */
    };
    static const uint8_t marks[] = { 3, 255 }; /* too high, the highest */
    struct lead lead = lead_read(slot_of(&now, slot));

    if (which == 0)
        lead.revision = 0;
    else if (which <= 2)
        lead.mark = marks[which - 1];
    else
        lead.length = lengths[which - 3];
    hold_lead(slot, lead);
    if (lead.length < 40)
        cut(slot, lead.length);
    if (lead.length == 39)
        hold_byte(slot, LAGUNEDO_LEAD_SIZE + 39, 1);
}

void flaw(size_t slot, size_t which)
{
    /* Bytes that have to be 0. */
    static const struct {
        size_t at;
        uint8_t byte;
    } zeros[] = {
        { LEAD_GAP, 1 },
        { LEAD_GAP, 128 },     /* its high bit */
        { LEAD_END, 1 },
        { LEAD_END + 1, 1 },
        { LEAD_END + 2, 1 },
        { LEAD_END + 3, 64 },  /* the last of the lead */
        { 56, 1 },             /* right behind the text */
        { 1000, 16 },          /* far behind it */
        { 2111, 128 }          /* the last byte of the slot */
    };

    if (which < FIELD_FLAWS)
        flaw_field(slot, which);
    else
        hold_byte(slot, zeros[which - FIELD_FLAWS].at,
                  zeros[which - FIELD_FLAWS].byte);
}
