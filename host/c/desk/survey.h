/*
 * The library's check, told as 01's listing tells it.
 */

#ifndef DESK_SURVEY_H
#define DESK_SURVEY_H

#include <stdint.h>

#include "command.h"

struct counts {
    uint32_t used, free, clear, old_key, new_key;
};

/*
 * Counts the store's slots. What is amiss is the answer, printed in 01's
 * words, and its meaning goes to standard error; a status.
 */
int survey(const struct desk *desk, struct counts *counts);

#endif
