/*
 * The store file of a run, with a complaint for each answer but the good one.
 */

#include "say.h"
#include "status.h"
#include "store_file.h"

/* The status of an answer, after a complaint. */
static int answered(const struct store_file *store,
                    enum lagunedo_file_answer answer)
{
    const char *path = store->file.path;

    switch (answer) {
    case LAGUNEDO_FILE_DONE:
        return DESK_DONE;
    case LAGUNEDO_FILE_NOT_REGULAR:
        complain("%s: not a regular file", path);
        return DESK_FILE;
    case LAGUNEDO_FILE_RESERVED:
        complain("%s: files whose names end in .desk-lock, .desk-new or "
                 ".desk-before are for the store beside them", path);
        return DESK_USAGE;
    case LAGUNEDO_FILE_EXISTS:
        complain("%s: there is a file of that name already", path);
        return DESK_EXISTS;
    case LAGUNEDO_FILE_IN_USE:
        complain("%s: in use by another run; --wait waits for it to end",
                 path);
        return DESK_IN_USE;
    case LAGUNEDO_FILE_UNCONFIRMED:
        complain("%s: changed, but its directory could not be flushed", path);
        return DESK_UNCONFIRMED;
    default:
        return file_trouble(store->file.about);
    }
}

/* Whoever waits is told so first. */
static enum lagunedo_file_answer lock(struct store_file *store, int wait)
{
    enum lagunedo_file_answer answer = lagunedo_file_lock(&store->file, 0);

    if (answer != LAGUNEDO_FILE_IN_USE || !wait)
        return answer;
    complain("%s: waiting for another run to end", store->file.path);
    return lagunedo_file_lock(&store->file, 1);
}

int store_open(struct store_file *store, const char *path,
               enum lagunedo_file_purpose purpose, int wait)
{
    enum lagunedo_file_answer answer =
        lagunedo_file_place(&store->file, path, purpose);

    store->replaced = 0;
    if (answer != LAGUNEDO_FILE_DONE)
        return answered(store, answer);
    if (purpose != LAGUNEDO_FILE_TO_READ)
        answer = lock(store, wait);
    if (answer == LAGUNEDO_FILE_DONE)
        answer = lagunedo_file_load(&store->file, store->bytes, STORE_ROOM,
                                    &store->length);
    if (answer != LAGUNEDO_FILE_DONE)
        store_close(store);
    return answered(store, answer);
}

int store_replace(struct store_file *store)
{
    enum lagunedo_file_answer answer = lagunedo_file_replace(
        &store->file, store->bytes, store->length);

    store->replaced = answer == LAGUNEDO_FILE_DONE ||
                      answer == LAGUNEDO_FILE_UNCONFIRMED;
    return answered(store, answer);
}

int store_replace_and_keep(struct store_file *store)
{
    enum lagunedo_file_answer answer = lagunedo_file_keep(&store->file);
    int status;

    if (answer != LAGUNEDO_FILE_DONE)
        return answered(store, answer);
    status = store_replace(store);
    if (store->replaced)
        complain("%s is the store as it was: remove it when sheets read well",
                 store->file.before_name);
    return status;
}

void store_close(struct store_file *store)
{
    lagunedo_file_leave(&store->file);
}
