/*
 * Whether anything in the library branches on a secret byte, or reads or
 * writes at a place that depends on one, as valgrind's memcheck sees it:
 *
 *   valgrind secret calls          every call of lagunedo.h that takes a key
 *   valgrind secret substitution   the substitution alone
 *   valgrind secret look-up        the same, looked up in its tables
 *   valgrind secret branch         a branch on a secret byte
 *   secret names                   the names of the calls, a line each
 *
 * Memcheck prints a report for each such place in the machine code. Of the
 * first two it has to print none, and of the next two one at least;
 * secret_test.sh sees to that. This program itself looks at what a call leaves: every bit of
 * the result secret, every number in the open, and all as the same call leaves
 * it with nothing hidden.
 */

#include <stdio.h>
#include <string.h>

#include <valgrind/valgrind.h>

#include "secret/secret.h"

static unsigned long passed, failed;

void checked(int holds, const char *call, const char *what)
{
    if (holds) {
        passed++;
        return;
    }
    failed++;
    fprintf(stderr, "secret: FAILED: %s: %s\n", call, what);
}

/* The status, after the last check. */
static int ended(void)
{
    if (failed != 0)
        return 1;
    printf("%lu checks passed\n", passed);
    return 0;
}

static void secret_calls(void)
{
    secret_ciphers();
    secret_store();
}

static void names(void)
{
    cipher_names();
    store_names();
}

static const struct {
    const char *word;
    void (*run)(void);
} parts[] = { { "calls", secret_calls },
              { "substitution", secret_substitution },
              { "look-up", secret_look_up },
              { "branch", secret_branch } };

int main(int count, char **words)
{
    const char *word = count == 2 ? words[1] : "";
    size_t i;

    if (strcmp(word, "names") == 0) {
        names();
        return 0;
    }
    if (!RUNNING_ON_VALGRIND) {
        fprintf(stderr, "secret: nothing is found without valgrind\n");
        return 2;
    }
    for (i = 0; i < sizeof parts / sizeof parts[0]; i++)
        if (strcmp(word, parts[i].word) == 0) {
            parts[i].run();
            return ended();
        }
    fprintf(stderr, "usage: valgrind secret "
            "calls|substitution|look-up|branch, or secret names\n");
    return 2;
}
