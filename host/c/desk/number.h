/*
 * Numbers on the command line.
 */

#ifndef DESK_NUMBER_H
#define DESK_NUMBER_H

#include <stdint.h>

/*
 * Whether the word is a decimal number of at most 32 bits, and nothing else:
 * no sign, no blank. Only then is the number written.
 */
int number_read(const char *word, uint32_t *number);

/* The same of at most 64 bits. */
int number_read_64(const char *word, uint64_t *number);

#endif
