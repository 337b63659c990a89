#include "bench.h"

#include <stdio.h>
#include <stdlib.h>
#include <time.h>

/* In nanoseconds: one batch at the least, and all of them together. */
enum { BATCH = 500000, ALL = 4000000, FEWEST_BATCHES = 2 };

/* The process's own time, so that waiting for others is not counted. */
static double now(void)
{
    struct timespec t;

    clock_gettime(CLOCK_PROCESS_CPUTIME_ID, &t);
    return 1e9 * (double)t.tv_sec + (double)t.tv_nsec;
}

static double batch(void (*call)(void *), void *with, unsigned long calls)
{
    double start = now();
    unsigned long i;

    for (i = 0; i < calls; i++)
        call(with);
    return now() - start;
}

/*
 * One call in the best of several batches, each long enough for the clock and
 * short enough to fall between two disturbances.
 */
static double best_time(void (*call)(void *), void *with)
{
    unsigned long calls = 1;
    double best, spent, took = batch(call, with, calls);
    int batches;

    while (took < BATCH) {
        calls *= 2;
        took = batch(call, with, calls);
    }
    best = spent = took;
    for (batches = 1; batches < FEWEST_BATCHES || spent < ALL; batches++) {
        took = batch(call, with, calls);
        spent += took;
        best = took < best ? took : best;
    }
    return best / (double)calls;
}

void time_row(const struct row *row, void (*call)(void *), void *with)
{
    printf("%s\t%s\t%s\t%s\t%u\t%lu\t%.2f\n", row->who, row->work, row->call,
           row->keying, row->bits, (unsigned long)row->size,
           best_time(call, with));
}

void must(int holds, const char *what)
{
    if (holds)
        return;
    fprintf(stderr, "peers: %s\n", what);
    exit(EXIT_FAILURE);
}
