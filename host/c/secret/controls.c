/*
 * What memcheck has to report, so that its silence elsewhere says something:
 * the substitution looked up in its tables, as libprobe.a keeps it for tests,
 * and a branch. Beside them the substitution as the running code has it, of
 * which memcheck has nothing to report.
 */

#include <stdbool.h>
#include <stdint.h>
#include <string.h>

#include "fill.h"
#include "secret.h"

/* Two calls of libprobe.a, which are no part of lagunedo.h. */
uint32_t lagunedo_probe_substitute(bool back, uint8_t *bytes, size_t length);
uint32_t lagunedo_probe_look_up(bool back, uint8_t *bytes, size_t length);

/* Whole groups of bytes, and a rest that goes by itself. */
enum { BYTES = 300, SEED = 1703 };

static uint8_t bytes[BYTES], wanted[BYTES];
static volatile unsigned taken;

static void both_ways(uint32_t (*call)(bool back, uint8_t *bytes,
                                       size_t length), const char *name)
{
    int back;

    for (back = 0; back < 2; back++) {
        fill(wanted, BYTES, SEED);
        checked(call(back, wanted, BYTES) == 0, name, "open bytes");
        fill(bytes, BYTES, SEED);
        hide(bytes, BYTES);
        checked(call(back, bytes, BYTES) == 0, name, "the answer");
        show(bytes, BYTES);
        checked(memcmp(bytes, wanted, BYTES) == 0, name,
                "other bytes than with nothing hidden");
    }
}

void secret_substitution(void)
{
    both_ways(lagunedo_probe_substitute, "lagunedo_probe_substitute");
}

void secret_look_up(void)
{
    both_ways(lagunedo_probe_look_up, "lagunedo_probe_look_up");
}

/* Something is written, or is not, which no plain move can do. */
void secret_branch(void)
{
    fill(bytes, BYTES, SEED);
    hide(bytes, BYTES);
    if (bytes[0] & 1)
        taken = 1;
    checked(all_hidden(bytes, BYTES), "a branch", "bytes in the open");
}
