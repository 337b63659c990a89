/*
 * The store's calls timed: at growing numbers of slots under keys of 48 bytes,
 * and on one slot under keys of 64.
 */

#include <string.h>

#include "bench.h"
#include "fill.h"
#include "lagunedo.h"
#include "record.h"

enum { GROWTH = 4 };

static uint8_t sheets[LAGUNEDO_SLOT_LIMIT * LAGUNEDO_RECORD_SIZE];
static uint8_t old_key[64], new_key[64], text[LAGUNEDO_TEXT_MOST];
static size_t key; /* how many bytes of the keys are lent */

/* A full store: slot k has sheet k + 1, and each text is as long. */
struct store {
    uint32_t slots;
    size_t text_length;
};

static size_t size_of(const struct store *s)
{
    return (size_t)s->slots * LAGUNEDO_RECORD_SIZE;
}

static uint8_t *slot(uint32_t k)
{
    return sheets + (size_t)k * LAGUNEDO_RECORD_SIZE;
}

/* The lead of a slot is put back before a call that changes it. */
static void put(const struct store *s, uint32_t k, uint32_t sheet,
                uint8_t mark)
{
    struct lead lead = { sheet, 1, mark, (uint32_t)s->text_length };

    lead_write(slot(k), lead);
}

/* Under a key any bytes are the encipherment of some text. */
static void make(const struct store *s)
{
    uint32_t k;

    memset(sheets, 0, sizeof sheets);
    for (k = 0; k < s->slots; k++) {
        put(s, k, k + 1, LAGUNEDO_MARK_NEW_KEY);
        fill(slot(k) + LAGUNEDO_LEAD_SIZE, s->text_length, k);
    }
}

static void check(void *with)
{
    const struct store *s = with;
    uint32_t fault, used = 0, free, clear, old, current;

    must(lagunedo_check(sheets, size_of(s), &fault, &used, &free, &clear,
                        &old, &current) == LAGUNEDO_DONE &&
             used == s->slots,
         "check does not count a full store");
}

/* The sheet in the last slot is the farthest to find. */
static void read_last(void *with)
{
    const struct store *s = with;
    uint32_t length, revision;

    must(lagunedo_read(old_key, key, new_key, key, sheets, size_of(s),
                       s->slots, text, sizeof text, &length,
                       &revision) == LAGUNEDO_DONE,
         "read is refused");
}

/* The last slot is made free first; add writes the rest of it anyway. */
static void add_last(void *with)
{
    const struct store *s = with;
    uint32_t revision;

    put(s, s->slots - 1, 0, LAGUNEDO_MARK_CLEAR);
    must(lagunedo_add(old_key, key, new_key, key, sheets, size_of(s),
                      s->slots, text, s->text_length,
                      &revision) == LAGUNEDO_DONE,
         "add is refused");
}

static void revise_last(void *with)
{
    const struct store *s = with;
    uint32_t revision;

    put(s, s->slots - 1, s->slots, LAGUNEDO_MARK_NEW_KEY);
    must(lagunedo_revise(old_key, key, new_key, key, sheets, size_of(s),
                         s->slots, 1, text, s->text_length,
                         &revision) == LAGUNEDO_DONE,
         "revise is refused");
}

/* The job from place 0 until it is done, every sheet under the old key. */
static void rekey(void *with)
{
    const struct store *s = with;
    struct lagunedo_job job = { 0 };
    uint32_t k, outcome, converted = 0;

    for (k = 0; k < s->slots; k++)
        put(s, k, k + 1, LAGUNEDO_MARK_OLD_KEY);
    do {
        must(lagunedo_job_step(&job, old_key, key, new_key, key, sheets,
                               size_of(s), &outcome) == LAGUNEDO_DONE,
             "a step is refused");
        converted += outcome == LAGUNEDO_STEP_CONVERTED;
    } while (outcome != LAGUNEDO_STEP_DONE);
    must(converted == s->slots, "a sheet is not converted");
}

static const struct {
    const char *name;
    void (*call)(void *);
} calls[] = { { "check", check },
              { "read", read_last },
              { "add", add_last },
              { "revise", revise_last },
              { "rekey", rekey } };

static void time_calls(struct row row, struct store store)
{
    size_t i;

    row.size = store.slots;
    make(&store);
    for (i = 0; i < sizeof calls / sizeof calls[0]; i++) {
        row.call = calls[i].name;
        time_row(&row, calls[i].call, &store);
    }
}

static void time_sheets(struct row row, size_t text_length)
{
    struct store store = { 1, text_length };

    row.bits = 256;
    key = 64;
    time_calls(row, store);
    row.bits = 128;
    key = 48;
    for (; store.slots <= LAGUNEDO_SLOT_LIMIT; store.slots *= GROWTH)
        time_calls(row, store);
}

void time_store(const char *who)
{
    struct row row = { .who = who, .keying = "each" };

    fill(old_key, sizeof old_key, 1);
    fill(new_key, sizeof new_key, 2);
    fill(text, sizeof text, 3);
    row.work = "short sheets";
    time_sheets(row, LAGUNEDO_TEXT_LEAST);
    row.work = "long sheets";
    time_sheets(row, LAGUNEDO_TEXT_MOST);
}
