/*
 * Drawing the bar: a mark for every two parts in a hundred.
 */

#include <stdio.h>
#include <unistd.h>

#include "progress.h"

enum { WIDTH = 50, NO_BAR_YET = 101 };

static void draw(const struct progress *progress)
{
    static const char full[WIDTH + 1] =
        "##################################################";
    int filled = (int)(progress->percent * WIDTH / 100);

    fprintf(stderr, "\r[%.*s%*s] %3u%%", filled, full, WIDTH - filled, "",
            (unsigned)progress->percent);
}

void progress_begin(struct progress *progress, uint32_t total)
{
    progress->terminal = isatty(STDERR_FILENO);
    progress->total = total;
    progress->percent = NO_BAR_YET;
}

void progress_move(struct progress *progress, uint32_t made)
{
    uint32_t percent = (uint32_t)((uint64_t)made * 100 / progress->total);

    if (progress->terminal && percent != progress->percent) {
        progress->percent = percent;
        draw(progress);
    }
}

void progress_end(const struct progress *progress)
{
    if (progress->percent != NO_BAR_YET)
        fputc('\n', stderr);
}
