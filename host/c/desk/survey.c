/*
 * The commands that look over a whole store: check and list, in the words of
 * 01's listing, and new, which shows what it made.
 */

#include <stdio.h>
#include <string.h>

#include "../record.h"
#include "refusal.h"
#include "say.h"
#include "status.h"
#include "survey.h"

int survey(const struct desk *desk, struct counts *counts)
{
    const struct store_file *store = &desk->store;
    uint32_t fault;
    uint32_t number = lagunedo_check(store->bytes, store->length, &fault,
                                     &counts->used, &counts->free,
                                     &counts->clear, &counts->old_key,
                                     &counts->new_key);

    if (number == LAGUNEDO_DONE)
        return DESK_DONE;
    if (number == LAGUNEDO_FAULT) {
        printf("fault at %u\n", (unsigned)fault);
        complain("%s: slot %u is unsound or repeats a lower slot's sheet "
                 "number", desk->request.store, (unsigned)fault);
        return DESK_FAULTY;
    }
    printf("refused %u\n", (unsigned)number);
    return refusal(desk, number);
}

static void show_counts(const struct counts *counts)
{
    printf("used %u free %u clear %u old %u new %u\n",
           (unsigned)counts->used, (unsigned)counts->free,
           (unsigned)counts->clear, (unsigned)counts->old_key,
           (unsigned)counts->new_key);
}

/* More slots than a store may have fill the room and are refused for it. */
int run_new(struct desk *desk)
{
    struct store_file *store = &desk->store;
    uint32_t slots = desk->request.number[SLOTS];
    struct counts counts;
    int status;

    store->length = slots > LAGUNEDO_SLOT_LIMIT
                        ? (size_t)STORE_ROOM
                        : (size_t)slots * LAGUNEDO_RECORD_SIZE;
    memset(store->bytes, 0, store->length);
    status = survey(desk, &counts);
    if (status != DESK_DONE)
        return status;
    status = store_replace(store);
    if (store->replaced)
        show_counts(&counts);
    return status;
}

int run_check(struct desk *desk)
{
    char digits[FINGERPRINT_DIGITS + 1];
    struct counts counts;
    int status = survey(desk, &counts);

    if (status != DESK_DONE)
        return status;
    show_counts(&counts);
    fingerprint(desk->store.bytes, desk->store.length, digits);
    printf("fingerprint %s\n", digits);
    return DESK_DONE;
}

/* A slot whose sheet number is 0 is free, and has no line (01, Listing). */
static void show_slots(const struct store_file *store)
{
    size_t slot, slots = store->length / LAGUNEDO_RECORD_SIZE;
    struct lead lead;

    for (slot = 0; slot < slots; slot++) {
        lead = lead_read(store->bytes + slot * LAGUNEDO_RECORD_SIZE);
        if (lead.sheet != 0)
            printf("%u %u %u %u %u\n", (unsigned)slot, (unsigned)lead.sheet,
                   (unsigned)lead.revision, (unsigned)lead.mark,
                   (unsigned)lead.length);
    }
}

int run_list(struct desk *desk)
{
    struct counts counts;
    int status = survey(desk, &counts);

    if (status == DESK_DONE) {
        show_slots(&desk->store);
        show_counts(&counts);
    }
    return status;
}
