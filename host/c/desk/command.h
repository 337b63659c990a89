/*
 * The commands: what each takes, what it may do to the store, and who does
 * it. The command line is read, the input gathered, and the help and the man
 * page printed by these rows, so that a new command is a new row.
 */

#ifndef DESK_COMMAND_H
#define DESK_COMMAND_H

#include <stddef.h>

#include "input.h"
#include "request.h"
#include "store_file.h"

/* All that a command works on, gathered before it runs. */
struct desk {
    struct request request;
    struct key old_key, new_key, xts_key;
    struct text text;
    struct unit unit;
    struct store_file store;
};

/* Bits of takes; the rows of option.h name the bits that they go with. */
enum {
    TAKES_KEYS = 1,    /* --key, or --old-key and --new-key */
    TAKES_ONE_KEY = 2, /* --key */
    TAKES_TEXT = 4,    /* on standard input */
    TAKES_SEEN = 8,
    TAKES_COPIES = 16,
    TAKES_RAW = 32,
    TAKES_LOCK = 64,
    TAKES_UNIT = 128, /* on standard input, with --xts-key and --unit */
    TAKES_BLOCK = 256,
    TAKES_NO_STORE = 512 /* every other command is given one */
};

struct command {
    const char *name;
    const char *operands; /* the names of the numbers after STORE */
    size_t numbers;       /* and how many they are */
    int takes;
    enum lagunedo_file_purpose purpose;
    int (*run)(struct desk *desk); /* gives the status to end with */
    const char *summary;
    const char *details; /* a paragraph for the help of this command */
};

enum { COMMANDS = 11 };

extern const struct command commands[COMMANDS];

/* The command of that name, or NULL. */
const struct command *command_named(const char *name);

/* survey.c */
int run_new(struct desk *desk);
int run_check(struct desk *desk);
int run_list(struct desk *desk);

/* sheets.c */
int run_add(struct desk *desk);
int run_read(struct desk *desk);
int run_revise(struct desk *desk);
int run_remove(struct desk *desk);
int run_import_xts(struct desk *desk);

/* block.c */
int run_xts_block(struct desk *desk);

/* begin.c */
int run_begin(struct desk *desk);

/* rekey.c */
int run_rekey(struct desk *desk);

#endif
