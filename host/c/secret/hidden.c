#include <stdint.h>

#include <valgrind/memcheck.h>

#include "secret.h"

enum { EVERY_BIT = 0xff };

void hide(void *bytes, size_t length)
{
    (void)VALGRIND_MAKE_MEM_UNDEFINED(bytes, length);
}

void show(void *bytes, size_t length)
{
    (void)VALGRIND_MAKE_MEM_DEFINED(bytes, length);
}

/* Whether of each byte just these bits are secret. */
static int secret_bits(const uint8_t *bytes, size_t length, uint8_t wanted)
{
    uint8_t bits;
    size_t i;

    for (i = 0; i < length; i++)
        if (VALGRIND_GET_VBITS(bytes + i, &bits, 1) != 1 || bits != wanted)
            return 0;
    return 1;
}

int all_hidden(const void *bytes, size_t length)
{
    return secret_bits(bytes, length, EVERY_BIT);
}

int none_hidden(const void *bytes, size_t length)
{
    return secret_bits(bytes, length, 0);
}
