/*
 * The fingerprint of standard input, for tests.
 */

#include <stdio.h>
#include <unistd.h>

#include "../../file/bytes.h"
#include "../fingerprint.h"

int main(void)
{
    static uint8_t bytes[1 << 20];
    char digits[FINGERPRINT_DIGITS + 1];
    size_t length;

    if (lagunedo_file_bytes_read(STDIN_FILENO, bytes, sizeof bytes,
                                 &length) != 0)
        return 1;
    fingerprint(bytes, length, digits);
    return puts(digits) == EOF;
}
