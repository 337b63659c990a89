/*
 * How a run of desk ends: 0, the number of the library's refusal, or one of
 * the statuses from 100 up, which are desk's own.
 */

#ifndef DESK_STATUS_H
#define DESK_STATUS_H

#include <stddef.h>

enum desk_status {
    DESK_DONE = 0,
    DESK_FAULTY = 100,
    DESK_DAMAGED = 101,
    DESK_USAGE = 102,
    DESK_IN_USE = 103,
    DESK_FILE = 104,
    DESK_UNCONFIRMED = 105,
    DESK_EXISTS = 106,
    DESK_OTHER_STORE = 107,
    DESK_UNDER_WAY = 108
};

const char *status_meaning(int status);

/*
 * The i-th status, from 0 on, and what it means; 0 once there is none.
 */
int status_row(size_t i, int *status, const char **meaning);

#endif
