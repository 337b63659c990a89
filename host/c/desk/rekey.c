/*
 * The rekeying job over a whole store, by one copy or by several in turn.
 *
 * The steps run on the store in memory, and the file is replaced once, after
 * the last. A run that is cut off leaves the old store, and the next begins
 * again at slot 0.
 */

#include <stdio.h>
#include <string.h>

#include "../record.h"
#include "command.h"
#include "progress.h"
#include "refusal.h"
#include "say.h"
#include "status.h"

enum { OUTCOMES = LAGUNEDO_STEP_CONVERTED + 1 };

/* A copy of the job, and how often its steps had each outcome. */
struct copy {
    struct lagunedo_job job;
    uint32_t had[OUTCOMES];
};

struct rekeying {
    struct copy copy[COPIES_MOST];
    uint32_t copies, made;
    uint8_t damaged[LAGUNEDO_SLOT_LIMIT]; /* 1 for a slot that was found so */
    struct progress progress;
};

static uint32_t step(struct desk *desk, struct rekeying *all,
                     struct copy *copy)
{
    uint64_t place = copy->job.place;
    uint32_t outcome;
    uint32_t number = lagunedo_job_step(
        &copy->job, desk->old_key.bytes, desk->old_key.length,
        desk->new_key.bytes, desk->new_key.length, desk->store.bytes,
        desk->store.length, &outcome);

    if (number != LAGUNEDO_DONE)
        return number;
    copy->had[outcome]++;
    if (outcome == LAGUNEDO_STEP_DAMAGED)
        all->damaged[place] = 1;
    if (outcome != LAGUNEDO_STEP_DONE)
        progress_move(&all->progress, ++all->made);
    return number;
}

/* One step of each copy that is not done; the first refusal ends it. */
static uint32_t round_of_steps(struct desk *desk, struct rekeying *all,
                               int *done)
{
    uint32_t i, number = LAGUNEDO_DONE;

    *done = 1;
    for (i = 0; i < all->copies && number == LAGUNEDO_DONE; i++)
        if (all->copy[i].had[LAGUNEDO_STEP_DONE] == 0) {
            number = step(desk, all, &all->copy[i]);
            *done = 0;
        }
    return number;
}

static uint32_t run_copies(struct desk *desk, struct rekeying *all)
{
    size_t slots = desk->store.length / LAGUNEDO_RECORD_SIZE;
    uint32_t number;
    int done;

    memset(all, 0, sizeof *all);
    all->copies = desk->request.copies;
    progress_begin(&all->progress, all->copies * (uint32_t)slots);
    do
        number = round_of_steps(desk, all, &done);
    while (number == LAGUNEDO_DONE && !done);
    progress_end(&all->progress);
    return number;
}

static void show_copies(const struct rekeying *all)
{
    const uint32_t *had;
    uint32_t i;

    for (i = 0; i < all->copies; i++) {
        had = all->copy[i].had;
        printf("copy %u converted %u already %u free %u damaged %u\n",
               (unsigned)i + 1, (unsigned)had[LAGUNEDO_STEP_CONVERTED],
               (unsigned)had[LAGUNEDO_STEP_ALREADY],
               (unsigned)had[LAGUNEDO_STEP_FREE],
               (unsigned)had[LAGUNEDO_STEP_DAMAGED]);
    }
}

/* Names the damaged slots, and gives the status that they make. */
static int tell_damage(const struct desk *desk, const struct rekeying *all)
{
    int status = DESK_DONE;
    struct lead lead;
    size_t slot;

    for (slot = 0; slot < LAGUNEDO_SLOT_LIMIT; slot++) {
        if (!all->damaged[slot])
            continue;
        lead = lead_read(desk->store.bytes + slot * LAGUNEDO_RECORD_SIZE);
        complain("slot %u, sheet %u, is damaged and was kept as it was",
                 (unsigned)slot, (unsigned)lead.sheet);
        status = DESK_DAMAGED;
    }
    return status;
}

static int same_key(const struct desk *desk)
{
    const struct key *old = &desk->old_key, *new = &desk->new_key;

    return old->length == new->length &&
           memcmp(old->bytes, new->bytes, old->length) == 0;
}

/*
 * A mark says new key and not which. The first copy is first at each slot, so
 * what it found so was so before this run.
 */
static void tell_already(const struct desk *desk, const struct rekeying *all)
{
    uint32_t already = all->copy[0].had[LAGUNEDO_STEP_ALREADY];

    if (already == 0 || same_key(desk))
        return;
    complain("sheets found marked new key, and left as they were: %u",
             (unsigned)already);
    complain("each is under the key that it was last written with");
    complain("if this rekeying was under way, with both keys given, that is "
             "the new key");
    complain("if none was under way, it is another key: keep that, and give "
             "begin first");
}

static int any_converted(const struct rekeying *all)
{
    uint32_t i;

    for (i = 0; i < all->copies; i++)
        if (all->copy[i].had[LAGUNEDO_STEP_CONVERTED] > 0)
            return 1;
    return 0;
}

/* If nothing was converted the store is as it was, and so is its file. */
int run_rekey(struct desk *desk)
{
    struct rekeying all;
    uint32_t number = run_copies(desk, &all);
    int status = DESK_DONE, damage;

    if (number != LAGUNEDO_DONE)
        return refusal(desk, number);
    if (any_converted(&all)) {
        status = store_replace_and_keep(&desk->store);
        if (!desk->store.replaced)
            return status;
    }
    show_copies(&all);
    tell_already(desk, &all);
    damage = tell_damage(desk, &all);
    return status == DESK_DONE ? damage : status;
}
