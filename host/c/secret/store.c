/*
 * The sheet store and its rekeying job.
 *
 * Secret are all keys, every text that is lent to a call or to be filled by
 * it, and of each used slot the text, as long as the lead says: in clear it is
 * the sheet itself, and enciphered bytes are hidden too, so that nothing that
 * is made of them is lost from sight.
 *
 * Open are the leads (sheet number, revision, mark, text length), the zeros
 * after a text and all of a free slot, which a sound store has at those
 * places and check, read, revise and step look at; the sheet and the revision
 * that are asked for, lengths, the job's place, and all numbers answered.
 * Whoever has the file has these.
 */

#include <stdio.h>
#include <string.h>

#include "fill.h"
#include "lagunedo.h"
#include "record.h"
#include "secret.h"

enum { SLOTS = 4, BESIDE = 0, FOUND = 1, FREE = 2, LAST = 3 };
enum { SHEET = 305, ABSENT = 401, REVISION = 7, SEED = 1702 };

static struct lent {
    uint8_t old_key[LAGUNEDO_EME2_KEY_256], new_key[LAGUNEDO_EME2_KEY_256];
    uint8_t xts_key[LAGUNEDO_XTS_KEY_256];
    uint8_t text[LAGUNEDO_TEXT_MOST], store[SLOTS * LAGUNEDO_RECORD_SIZE];
    uint32_t counts[6], length, revision, outcome;
    struct lagunedo_job job;
} now, wanted;

struct lengths {
    size_t old_key, new_key, text;
};

/* The two keys and the store, as the calls take them. */
#define KEYS now.old_key, n.old_key, now.new_key, n.new_key
#define STORE now.store, sizeof now.store

static uint32_t check(struct lengths n)
{
    (void)n;
    return lagunedo_check(STORE, &now.counts[0], &now.counts[1],
                          &now.counts[2], &now.counts[3], &now.counts[4],
                          &now.counts[5]);
}

static uint32_t read_into(struct lengths n, uint32_t sheet, size_t room)
{
    return lagunedo_read(KEYS, STORE, sheet, now.text, room, &now.length,
                         &now.revision);
}

static uint32_t read_exact(struct lengths n)
{
    return read_into(n, SHEET, n.text);
}

static uint32_t read_roomy(struct lengths n)
{
    return read_into(n, SHEET, sizeof now.text);
}

static uint32_t read_short(struct lengths n)
{
    return read_into(n, SHEET, n.text - 1);
}

static uint32_t read_absent(struct lengths n)
{
    return read_into(n, ABSENT, n.text);
}

static uint32_t add_sheet(struct lengths n, uint32_t sheet)
{
    return lagunedo_add(KEYS, STORE, sheet, now.text, n.text, &now.revision);
}

static uint32_t add(struct lengths n) { return add_sheet(n, ABSENT); }

static uint32_t add_present(struct lengths n) { return add_sheet(n, SHEET); }

/* The text as a unit under XTS-AES, with a key of either length. */
static uint32_t add_unit(struct lengths n, uint32_t sheet)
{
    size_t half = n.old_key - 32;

    return lagunedo_add_xts(now.xts_key, 2 * half, REVISION, now.text, n.text,
                            KEYS, STORE, sheet, &now.revision);
}

static uint32_t add_xts(struct lengths n) { return add_unit(n, ABSENT); }

static uint32_t add_xts_present(struct lengths n)
{
    return add_unit(n, SHEET);
}

static uint32_t revise_seen(struct lengths n, uint32_t seen)
{
    return lagunedo_revise(KEYS, STORE, SHEET, seen, now.text, n.text,
                           &now.revision);
}

static uint32_t revise(struct lengths n) { return revise_seen(n, REVISION); }

static uint32_t revise_late(struct lengths n)
{
    return revise_seen(n, REVISION - 1);
}

static uint32_t remove_sheet(struct lengths n)
{
    (void)n;
    return lagunedo_remove(STORE, SHEET);
}

static uint32_t step(struct lengths n)
{
    return lagunedo_step(KEYS, STORE, &now.job.place, &now.outcome);
}

/* From the first slot on until the job is done, and once more. */
static uint32_t job(struct lengths n)
{
    uint32_t number = LAGUNEDO_DONE, i;

    now.job.place = 0;
    for (i = 0; i < SLOTS + 2 && number == LAGUNEDO_DONE; i++)
        number = lagunedo_job_step(&now.job, KEYS, STORE, &now.outcome);
    return number;
}

static uint32_t short_key(struct lengths n)
{
    n.new_key--;
    return step(n);
}

static const struct {
    const char *name;
    uint32_t (*call)(struct lengths n);
    uint32_t number;
} calls[] = { { "lagunedo_check", check, LAGUNEDO_DONE },
              { "lagunedo_read", read_exact, LAGUNEDO_DONE },
              { "lagunedo_read", read_roomy, LAGUNEDO_DONE },
              { "lagunedo_read", read_short, LAGUNEDO_BUFFER_LENGTH },
              { "lagunedo_read", read_absent, LAGUNEDO_NO_SHEET },
              { "lagunedo_add", add, LAGUNEDO_DONE },
              { "lagunedo_add", add_present, LAGUNEDO_SHEET_PRESENT },
              { "lagunedo_add_xts", add_xts, LAGUNEDO_DONE },
              { "lagunedo_add_xts", add_xts_present, LAGUNEDO_SHEET_PRESENT },
              { "lagunedo_revise", revise, LAGUNEDO_DONE },
              { "lagunedo_revise", revise_late, LAGUNEDO_OTHER_REVISION },
              { "lagunedo_remove", remove_sheet, LAGUNEDO_DONE },
              { "lagunedo_step", step, LAGUNEDO_DONE },
              { "lagunedo_job_step", job, LAGUNEDO_DONE },
              { "lagunedo_step", short_key, LAGUNEDO_KEY_LENGTH } };

enum { CALLS = sizeof calls / sizeof calls[0] };

static uint8_t *slot_of(struct lent *lent, size_t slot)
{
    return lent->store + slot * LAGUNEDO_RECORD_SIZE;
}

/* Any bytes will do for a text under a key. */
static void put_sheet(size_t slot, uint32_t sheet, uint8_t mark, size_t length)
{
    struct lead lead = { sheet, REVISION, mark, (uint32_t)length };
    uint8_t *record = slot_of(&now, slot);

    lead_write(record, lead);
    fill(record + LAGUNEDO_LEAD_SIZE, length, sheet);
}

/* The sheet that the calls find, another before it and one after it. */
static void lend(size_t length, uint8_t mark)
{
    memset(&now, 0, sizeof now);
    fill(now.old_key, sizeof now.old_key, SEED);
    fill(now.new_key, sizeof now.new_key, SEED + 1);
    fill(now.text, sizeof now.text, SEED + 2);
    fill(now.xts_key, sizeof now.xts_key, SEED + 3);
    put_sheet(BESIDE, SHEET - 1, LAGUNEDO_MARK_CLEAR, 40);
    put_sheet(FOUND, SHEET, mark, length);
    put_sheet(LAST, SHEET + 1, LAGUNEDO_MARK_OLD_KEY, 33);
    now.job.place = FOUND;
}

static void hide_secrets(void)
{
    size_t slot;

    hide(now.old_key, sizeof now.old_key);
    hide(now.new_key, sizeof now.new_key);
    hide(now.text, sizeof now.text);
    hide(now.xts_key, sizeof now.xts_key);
    for (slot = 0; slot < SLOTS; slot++)
        hide(slot_of(&now, slot) + LAGUNEDO_LEAD_SIZE,
             lead_read(slot_of(&now, slot)).length);
}

/* Whether a slot's text is secret whole, and nothing else of it. */
static int text_alone_hidden(size_t slot)
{
    size_t length = lead_read(slot_of(&wanted, slot)).length;
    const uint8_t *lead = slot_of(&now, slot);
    const uint8_t *text = lead + LAGUNEDO_LEAD_SIZE;

    return none_hidden(lead, LAGUNEDO_LEAD_SIZE) && all_hidden(text, length)
           && none_hidden(text + length, LAGUNEDO_TEXT_MOST - length);
}

static void compare(size_t i, struct lengths n, uint8_t mark)
{
    const char *name = calls[i].name;
    uint32_t answer;
    size_t slot;

    lend(n.text, mark);
    checked(calls[i].call(n) == calls[i].number, name, "open bytes");
    memcpy(&wanted, &now, sizeof wanted);

    lend(n.text, mark);
    hide_secrets();
    answer = calls[i].call(n);
    checked(none_hidden(&answer, sizeof answer) && answer == calls[i].number,
            name, "the answer");
    checked(all_hidden(now.text, sizeof now.text), name, "the text lent");
    for (slot = 0; slot < SLOTS; slot++)
        checked(text_alone_hidden(slot), name, "a slot");
    checked(none_hidden(now.counts, sizeof now - offsetof(struct lent, counts)),
            name, "numbers that are made of secret bytes");
    show(&now, sizeof now);
    checked(memcmp(&now, &wanted, sizeof now) == 0, name,
            "other bytes than with nothing hidden");
}

void secret_store(void)
{
    static const size_t texts[] = { 16, 17, 31, 32, 47, 48, 287, 2065, 2096 };
    struct lengths n;
    uint8_t mark;
    size_t i, t, k;

    for (i = 0; i < CALLS; i++)
        for (t = 0; t < sizeof texts / sizeof texts[0]; t++)
            for (k = 0; k < 4; k++)
                for (mark = 0; mark <= LAGUNEDO_MARK_NEW_KEY; mark++) {
                    n.old_key = k & 1 ? LAGUNEDO_EME2_KEY_128
                                      : LAGUNEDO_EME2_KEY_256;
                    n.new_key = k & 2 ? LAGUNEDO_EME2_KEY_128
                                      : LAGUNEDO_EME2_KEY_256;
                    n.text = texts[t];
                    compare(i, n, mark);
                }
}

void store_names(void)
{
    size_t i;

    for (i = 0; i < CALLS; i++)
        printf("%s\n", calls[i].name);
}
