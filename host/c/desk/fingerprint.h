/*
 * By what an operator names a store: the SHA-256 of its bytes, in hex.
 */

#ifndef DESK_FINGERPRINT_H
#define DESK_FINGERPRINT_H

#include <stddef.h>
#include <stdint.h>

#include "sha256.h"

enum { FINGERPRINT_DIGITS = 2 * SHA256_SIZE };

/* The digits, in small letters, and a null after them. */
void fingerprint(const uint8_t *bytes, size_t length,
                 char digits[FINGERPRINT_DIGITS + 1]);

/*
 * Whether the word is a fingerprint, and nothing else. Only then is it
 * written, in small letters.
 */
int fingerprint_read(const char *word, char digits[FINGERPRINT_DIGITS + 1]);

#endif
