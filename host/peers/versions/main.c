/*
 * The library alone, without peers: versions NAME prints its rows under that
 * name. host/peers/versions/run puts the runs of two builds together.
 */

#include <stdio.h>

#include "bench.h"

int main(int count, char **words)
{
    if (count != 2) {
        fprintf(stderr, "usage: versions NAME\n");
        return 2;
    }
    time_ours(words[1]);
    return 0;
}
