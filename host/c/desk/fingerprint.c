/*
 * Writing and reading fingerprints.
 */

#include <string.h>

#include "fingerprint.h"

static const char hex[] = "0123456789abcdef";

void fingerprint(const uint8_t *bytes, size_t length,
                 char digits[FINGERPRINT_DIGITS + 1])
{
    uint8_t digest[SHA256_SIZE];
    size_t i;

    sha256(bytes, length, digest);
    for (i = 0; i < SHA256_SIZE; i++) {
        digits[2 * i] = hex[digest[i] >> 4];
        digits[2 * i + 1] = hex[digest[i] & 15];
    }
    digits[FINGERPRINT_DIGITS] = '\0';
}

int fingerprint_read(const char *word, char digits[FINGERPRINT_DIGITS + 1])
{
    static const char all[] = "0123456789abcdefABCDEF";
    size_t i;

    if (strlen(word) != FINGERPRINT_DIGITS ||
        strspn(word, all) != FINGERPRINT_DIGITS)
        return 0;
    for (i = 0; i < FINGERPRINT_DIGITS; i++)
        digits[i] = (char)(word[i] >= 'A' && word[i] <= 'F' ? word[i] + 32
                                                            : word[i]);
    digits[FINGERPRINT_DIGITS] = '\0';
    return 1;
}
