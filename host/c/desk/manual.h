/*
 * What the help and the man page say beside the tables: each part has a
 * title, and paragraphs without line breaks, which are filled when printed.
 */

#ifndef DESK_MANUAL_H
#define DESK_MANUAL_H

#include <stddef.h>

enum { PARTS = 5, PARAGRAPHS_MOST = 6 };

struct part {
    const char *title;
    const char *paragraph[PARAGRAPHS_MOST + 1]; /* NULL after the last */
};

extern const struct part manual[PARTS];

extern const char manual_purpose[]; /* what desk is for, in a line */
extern const char manual_statuses[]; /* what is to be said of the statuses */

extern const char *const manual_examples[]; /* NULL after the last */

#endif
