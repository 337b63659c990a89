/*
 * The commands on one sheet. Each is one call of the library on the loaded
 * store; only if that was not refused is the file replaced.
 */

#include <stdio.h>

#include "command.h"
#include "refusal.h"
#include "show.h"
#include "status.h"

/* The store that an accepted call left is kept, and then answered for. */
static int keep_and_tell(struct store_file *store, uint32_t revision)
{
    int status = store_replace(store);

    if (store->replaced)
        printf("revision %u\n", (unsigned)revision);
    return status;
}

int run_add(struct desk *desk)
{
    struct store_file *store = &desk->store;
    uint32_t revision;
    uint32_t number = lagunedo_add(
        desk->old_key.bytes, desk->old_key.length, desk->new_key.bytes,
        desk->new_key.length, store->bytes, store->length,
        desk->request.number[SHEET], desk->text.bytes, desk->text.length,
        &revision);

    if (number != LAGUNEDO_DONE)
        return refusal(desk, number);
    return keep_and_tell(store, revision);
}

int run_import_xts(struct desk *desk)
{
    struct store_file *store = &desk->store;
    uint32_t revision;
    uint32_t number = lagunedo_add_xts(
        desk->xts_key.bytes, desk->xts_key.length, desk->request.unit,
        desk->unit.bytes, desk->unit.length, desk->old_key.bytes,
        desk->old_key.length, desk->new_key.bytes, desk->new_key.length,
        store->bytes, store->length, desk->request.number[SHEET], &revision);

    if (number != LAGUNEDO_DONE)
        return refusal(desk, number);
    return keep_and_tell(store, revision);
}

int run_revise(struct desk *desk)
{
    struct store_file *store = &desk->store;
    uint32_t revision;
    uint32_t number = lagunedo_revise(
        desk->old_key.bytes, desk->old_key.length, desk->new_key.bytes,
        desk->new_key.length, store->bytes, store->length,
        desk->request.number[SHEET], desk->request.number[SEEN],
        desk->text.bytes, desk->text.length, &revision);

    if (number != LAGUNEDO_DONE)
        return refusal(desk, number);
    return keep_and_tell(store, revision);
}

int run_remove(struct desk *desk)
{
    struct store_file *store = &desk->store;
    uint32_t number = lagunedo_remove(store->bytes, store->length,
                                      desk->request.number[SHEET]);
    int status;

    if (number != LAGUNEDO_DONE)
        return refusal(desk, number);
    status = store_replace(store);
    if (store->replaced)
        printf("removed\n");
    return status;
}

/*
 * The revision is told first: where both streams are one terminal, a text
 * that does not end its line would run into it.
 */
int run_read(struct desk *desk)
{
    const struct store_file *store = &desk->store;
    struct text *text = &desk->text;
    uint32_t length, revision;
    uint32_t number = lagunedo_read(
        desk->old_key.bytes, desk->old_key.length, desk->new_key.bytes,
        desk->new_key.length, store->bytes, store->length,
        desk->request.number[SHEET], text->bytes, sizeof text->bytes,
        &length, &revision);

    if (number != LAGUNEDO_DONE)
        return refusal(desk, number);
    fprintf(stderr, "revision %u\n", (unsigned)revision);
    text_show(text->bytes, length, desk->request.raw);
    return DESK_DONE;
}
