/*
 * The one table of the numbers with which desk ends and what they mean. Those
 * of the library are the rows of the header's own table.
 */

#include <stddef.h>

#include "lagunedo.h"
#include "status.h"

#define ROW(name, number, meaning) { name, meaning },

static const struct {
    int status;
    const char *meaning;
} statuses[] = {
    { DESK_DONE, "done" },
    LAGUNEDO_REFUSALS(ROW)
    { DESK_FAULTY, "the store is faulty; the lowest faulty slot is named" },
    { DESK_DAMAGED, "rekeyed, but damaged slots were kept as they were" },
    { DESK_USAGE, "wrong usage" },
    { DESK_IN_USE, "the store is in use by another run" },
    { DESK_FILE,
      "a file could not be read or written; the store is as it was" },
    { DESK_UNCONFIRMED,
      "the store was changed, but its directory could not be flushed, or the "
      "answer not be printed" },
    { DESK_EXISTS, "new: there is a file of that name already" },
    { DESK_OTHER_STORE, "begin: the store is not the one that was seen" },
    { DESK_UNDER_WAY,
      "begin: a sheet is not marked new key, so a changeover is under way" }
};

enum { STATUSES = sizeof statuses / sizeof *statuses };

const char *status_meaning(int status)
{
    size_t i;

    for (i = 0; i < STATUSES; i++)
        if (statuses[i].status == status)
            return statuses[i].meaning;
    return "a number that desk does not know";
}

int status_row(size_t i, int *status, const char **meaning)
{
    if (i >= STATUSES)
        return 0;
    *status = statuses[i].status;
    *meaning = statuses[i].meaning;
    return 1;
}
