/*
 * A bar on standard error that shows how far a long run has come. If
 * standard error is no terminal, nothing is printed.
 */

#ifndef DESK_PROGRESS_H
#define DESK_PROGRESS_H

#include <stdint.h>

struct progress {
    int terminal;
    uint32_t total;   /* how many steps there are */
    uint32_t percent; /* what the bar says now; above 100 before the first */
};

void progress_begin(struct progress *progress, uint32_t total);

/* So many steps are made; the bar is drawn anew only if it changes. */
void progress_move(struct progress *progress, uint32_t made);

/* Leaves the bar, if there is one, and begins a new line. */
void progress_end(const struct progress *progress);

#endif
