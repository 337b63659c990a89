/*
 * The beginning of a changeover.
 *
 * Adding and revising write mark 2, and so does a step, so that a store ends
 * up marked new key throughout: that key is the old one of the next
 * changeover, and every sheet has to be marked so before it. This is outside
 * demand 3 of the scope, which speaks of two fixed keys.
 *
 * What is made is a function of the store and the key alone. So a begin that
 * is given again on the store that it named does what it did, and on any other
 * store, also the one that it made, nothing.
 */

#include <stdio.h>
#include <string.h>

#include "../record.h"
#include "refusal.h"
#include "say.h"
#include "status.h"
#include "survey.h"

/* 1 and 4, by the library: a step past the last slot does nothing else. */
static uint32_t lengths_tested(struct desk *desk)
{
    uint64_t place = LAGUNEDO_SLOT_LIMIT;
    uint32_t outcome;

    return lagunedo_step(desk->old_key.bytes, desk->old_key.length,
                         desk->new_key.bytes, desk->new_key.length,
                         desk->store.bytes, desk->store.length, &place,
                         &outcome);
}

static int is_the_one_seen(const struct desk *desk)
{
    char digits[FINGERPRINT_DIGITS + 1];

    fingerprint(desk->store.bytes, desk->store.length, digits);
    return strcmp(digits, desk->request.seen) == 0;
}

/* Whether the store may be begun on; a status. */
static int look(struct desk *desk, struct counts *counts)
{
    uint32_t number = lengths_tested(desk);
    int status;

    if (number != LAGUNEDO_DONE)
        return refusal(desk, number);
    if (!is_the_one_seen(desk)) {
        complain("%s: not the store that was seen: it was changed since, "
                 "perhaps by this begin", desk->request.store);
        return DESK_OTHER_STORE;
    }
    status = survey(desk, counts);
    if (status != DESK_DONE)
        return status;
    if (counts->new_key != counts->used) {
        complain("%s: of %u sheets %u are in clear and %u marked old key: "
                 "rekey first", desk->request.store, (unsigned)counts->used,
                 (unsigned)counts->clear, (unsigned)counts->old_key);
        return DESK_UNDER_WAY;
    }
    return DESK_DONE;
}

/*
 * A sheet under the key, marked new key, becomes one marked old key. The mark
 * is in the lead, and the lead is the associated data: so the text is
 * enciphered anew.
 */
static uint32_t mark_old(uint8_t *record, const struct key *key)
{
    uint8_t *text = record + LAGUNEDO_LEAD_SIZE;
    struct lead lead = lead_read(record);
    uint32_t number = lagunedo_eme2_decipher(key->bytes, key->length, record,
                                             LAGUNEDO_LEAD_SIZE, text,
                                             lead.length);

    if (number != LAGUNEDO_DONE)
        return number;
    lead.mark = LAGUNEDO_MARK_OLD_KEY;
    lead_write(record, lead);
    return lagunedo_eme2_encipher(key->bytes, key->length, record,
                                  LAGUNEDO_LEAD_SIZE, text, lead.length);
}

static uint32_t mark_all(struct desk *desk)
{
    uint8_t *at = desk->store.bytes, *end = at + desk->store.length;
    uint32_t number = LAGUNEDO_DONE;

    for (; at < end && number == LAGUNEDO_DONE; at += LAGUNEDO_RECORD_SIZE)
        if (lead_read(at).sheet != 0)
            number = mark_old(at, &desk->new_key);
    return number;
}

/* If there is no sheet the store is as it was, and so is its file. */
int run_begin(struct desk *desk)
{
    struct counts counts;
    uint32_t number;
    int status = look(desk, &counts);

    if (status != DESK_DONE)
        return status;
    number = mark_all(desk);
    if (number != LAGUNEDO_DONE)
        return refusal(desk, number);
    if (counts.used > 0) {
        status = store_replace_and_keep(&desk->store);
        if (!desk->store.replaced)
            return status;
    }
    printf("begun %u free %u\n", (unsigned)counts.used,
           (unsigned)counts.free);
    return status;
}
