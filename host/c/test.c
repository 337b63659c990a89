/*
 * The calls for C, checked as a job server would meet them. This file counts
 * the checks; the files of the calls below, named after them, hold them, and
 * test_lent.c lends the store's calls their memory.
 *
 * A failed check prints a line on standard error. If all pass, the last line
 * on standard output counts them.
 */

#include <stdio.h>
#include <string.h>

#include "check.h"

const char *const direction_name[DIRECTIONS] = { "encipher", "decipher" };
static unsigned long passed, failed;

int opposite(int direction)
{
    return direction == ENCIPHER ? DECIPHER : ENCIPHER;
}

int counted(int holds)
{
    if (holds)
        passed++;
    else
        failed++;
    return holds;
}

size_t from_hex(const char *hex, uint8_t *bytes)
{
    size_t length = strlen(hex) / 2, i;
    unsigned value;

    for (i = 0; i < length; i++) {
        if (sscanf(hex + 2 * i, "%2x", &value) != 1)
            return 0;
        bytes[i] = (uint8_t)value;
    }
    return length;
}

uint32_t digest(const uint8_t *bytes, size_t length)
{
    uint32_t sum = 2166136261u;
    size_t i;

    for (i = 0; i < length; i++)
        sum = (sum ^ bytes[i]) * 16777619u;
    return sum;
}

int main(void)
{
    test_aes();
    test_eme2();
    test_store();
    test_revisions();
    test_refusals();
    test_job();
    test_xts();
    test_takeover();
    test_alone();
    test_stack();
    test_numbers();

    if (failed != 0) {
        fprintf(stderr, "c: %lu checks failed\n", failed);
        return 1;
    }
    printf("c: %lu checks passed\n", passed);
    return 0;
}
