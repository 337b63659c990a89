/*
 * Decimal numbers. strtoul would take signs and blanks, and would turn -1
 * into a sheet number.
 */

#include "number.h"

int number_read_64(const char *word, uint64_t *number)
{
    uint64_t value = 0, digit;
    const char *at;

    for (at = word; *at >= '0' && *at <= '9'; at++) {
        digit = (uint64_t)(*at - '0');
        if (value > (UINT64_MAX - digit) / 10)
            return 0;
        value = 10 * value + digit;
    }
    if (at == word || *at != '\0')
        return 0;
    *number = value;
    return 1;
}

int number_read(const char *word, uint32_t *number)
{
    uint64_t value;

    if (!number_read_64(word, &value) || value > UINT32_MAX)
        return 0;
    *number = (uint32_t)value;
    return 1;
}
