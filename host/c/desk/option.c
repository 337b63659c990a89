/*
 * The table of the options.
 */

#include <stddef.h>

#include "command.h"
#include "option.h"

const struct option_row options[OPTIONS] = {
    { "key", 0, "FILE", TAKES_KEYS | TAKES_ONE_KEY, "the key, if one is in "
      "use" },
    { "old-key", 0, "FILE", TAKES_KEYS, "while two keys are in use, the old "
      "one" },
    { "new-key", 0, "FILE", TAKES_KEYS, "and the new one" },
    { "xts-key", 0, "FILE", TAKES_UNIT, "the XTS key of the unit on standard "
      "input" },
    { "unit", 0, "N", TAKES_UNIT, "the number of that unit" },
    { "block", 0, "K", TAKES_BLOCK, "xts-block: which block of it, from 0" },
    { "seen", 0, "FINGERPRINT", TAKES_SEEN, "begin: of the store that was "
      "seen, from check" },
    { "copies", 0, "N", TAKES_COPIES, "rekey: by N copies of the job in "
      "turn, 1 to 64" },
    { "raw", 0, NULL, TAKES_RAW, "read, xts-block: every byte as it is, at a "
      "terminal too" },
    { "wait", 0, NULL, TAKES_LOCK, "if the store is in use, waits until it "
      "is not" },
    { "help", 'h', NULL, 0, "prints the help, or that of one command" },
    { "version", 0, NULL, 0, "prints the version" },
    { "man", 0, NULL, 0, "prints the man page, for man -l" }
};
