/*
 * The options, for the command line, the help and the man page.
 */

#ifndef DESK_OPTION_H
#define DESK_OPTION_H

enum option_number {
    OPTION_KEY,
    OPTION_OLD_KEY,
    OPTION_NEW_KEY,
    OPTION_XTS_KEY,
    OPTION_UNIT,
    OPTION_BLOCK,
    OPTION_SEEN,
    OPTION_COPIES,
    OPTION_RAW,
    OPTION_WAIT,
    OPTION_HELP,
    OPTION_VERSION,
    OPTION_MAN,
    OPTIONS
};

struct option_row {
    const char *name;
    char letter;       /* its short form, or 0 */
    const char *value; /* the name of its value, or NULL if it has none */
    int with;          /* the bits of takes that it goes with; 0 is any */
    const char *meaning;
};

extern const struct option_row options[OPTIONS];

#endif
