/*
 * What a refusal is about: a key, the text, the unit, or the store.
 */

#include "refusal.h"
#include "say.h"
#include "status.h"

static void tell(const char *file, uint32_t number, size_t length,
                 size_t room, const char *more)
{
    complain("%s: refused with %u: %s; it has %lu bytes%s%s", file,
             (unsigned)number, status_meaning((int)number),
             (unsigned long)length, length == room ? " or more" : "", more);
}

/* The library's own test: an empty store is stepped at once, if keys are. */
static int takes_key(const struct key *key)
{
    uint64_t place = 0;
    uint32_t outcome;

    return lagunedo_step(key->bytes, key->length, key->bytes, key->length,
                         NULL, 0, &place, &outcome) == LAGUNEDO_DONE;
}

/* An editor ends a file in a newline, which makes a key too long by one. */
static void tell_key(const char *file, const struct key *key, uint32_t number)
{
    int newline = key->length > 0 && key->length < KEY_ROOM &&
                  key->bytes[key->length - 1] == '\n';

    tell(file, number, key->length, KEY_ROOM,
         newline ? ", the last a newline" : "");
}

static void tell_old_or_new_key(const struct desk *desk, uint32_t number)
{
    if (takes_key(&desk->old_key))
        tell_key(desk->request.new_key, &desk->new_key, number);
    else
        tell_key(desk->request.old_key, &desk->old_key, number);
}

/* The text, or the unit that would be one. */
static void tell_input(const struct desk *desk, uint32_t number)
{
    if ((desk->request.command->takes & TAKES_UNIT) != 0)
        tell("standard input", number, desk->unit.length, UNIT_ROOM, "");
    else
        tell("standard input", number, desk->text.length, TEXT_ROOM, "");
}

static void tell_block(const struct desk *desk, uint32_t number)
{
    complain("standard input: refused with %u: %s; it has %lu bytes, and "
             "block %llu was asked for", (unsigned)number,
             status_meaning((int)number), (unsigned long)desk->unit.length,
             (unsigned long long)desk->request.block);
}

static void tell_store(const struct desk *desk, uint32_t number)
{
    const struct request *request = &desk->request;

    if (request->command->purpose == LAGUNEDO_FILE_TO_MAKE)
        complain("%s: refused with %u: %s; %u slots were asked for",
                 request->store, (unsigned)number,
                 status_meaning((int)number),
                 (unsigned)request->number[SLOTS]);
    else
        tell(request->store, number, desk->store.length, STORE_ROOM,
             ", and a record has 2112");
}

int refusal(const struct desk *desk, uint32_t number)
{
    if (number == LAGUNEDO_KEY_LENGTH)
        tell_old_or_new_key(desk, number);
    else if (number == LAGUNEDO_XTS_KEY_LENGTH)
        tell_key(desk->request.xts_key, &desk->xts_key, number);
    else if (number == LAGUNEDO_STORE_LENGTH)
        tell_store(desk, number);
    else if (number == LAGUNEDO_TEXT_LENGTH || number == LAGUNEDO_UNIT_LENGTH)
        tell_input(desk, number);
    else if (number == LAGUNEDO_BLOCK_NOT_ALONE)
        tell_block(desk, number);
    else
        complain("%s: refused with %u: %s", desk->request.store,
                 (unsigned)number, status_meaning((int)number));
    return (int)number;
}
