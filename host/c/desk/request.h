/*
 * What the command line asks for.
 */

#ifndef DESK_REQUEST_H
#define DESK_REQUEST_H

#include <stddef.h>
#include <stdint.h>

#include "fingerprint.h"

struct command;

/* The numbers after STORE, by what each command takes them for. */
enum { SLOTS = 0, SHEET = 0, SEEN = 1, NUMBERS = 2 };

enum { COPIES_MOST = 64 };

enum asked { ASKED_COMMAND, ASKED_HELP, ASKED_VERSION, ASKED_MAN };

struct request {
    enum asked asked;
    const struct command *command; /* with ASKED_HELP NULL means of all */
    const char *store;
    uint32_t number[NUMBERS];
    const char *old_key, *new_key; /* files; the same string with --key */
    const char *xts_key;           /* a file */
    uint64_t unit, block;          /* their numbers */
    char seen[FINGERPRINT_DIGITS + 1];
    uint32_t copies;
    int raw, wait;
};

/* Reads the command line; DESK_DONE, or DESK_USAGE after a complaint. */
int request_read(struct request *request, int argc, char **argv);

#endif
