/*
 * What --help prints.
 */

#ifndef DESK_HELP_H
#define DESK_HELP_H

#include "command.h"

/* Of one command, or of all with NULL. */
void help_print(const struct command *command);

/* The command and its operands, as "add STORE SHEET". */
const char *help_usage(const struct command *command);

/* An option with the name of its value, as "--key FILE". */
const char *help_option(size_t number);

#endif
