/*
 * A block of 16 bytes as two numbers of 64 bits, byte 0 at the low end (01,
 * Doubling), so that xor and doubling take a few instructions.
 */

#ifndef BLOCK_H
#define BLOCK_H

#include <endian.h>
#include <stdint.h>
#include <string.h>

enum { BLOCK = 16 };

struct block {
    uint64_t low, high;
};

static inline uint64_t number_at(const uint8_t *bytes)
{
    uint64_t number;

    memcpy(&number, bytes, sizeof number);
    return le64toh(number);
}

static inline void put_number(uint8_t *bytes, uint64_t number)
{
    number = htole64(number);
    memcpy(bytes, &number, sizeof number);
}

static inline struct block block_at(const uint8_t *bytes)
{
    struct block x = { number_at(bytes), number_at(bytes + 8) };

    return x;
}

static inline void put_block(uint8_t *bytes, struct block x)
{
    put_number(bytes, x.low);
    put_number(bytes + 8, x.high);
}

static inline struct block xored(struct block x, struct block y)
{
    struct block z = { x.low ^ y.low, x.high ^ y.high };

    return z;
}

/* 000's Mult-by-alpha. */
static inline struct block doubled(struct block x)
{
    struct block y = { x.low << 1 ^ (0x87 & (0 - (x.high >> 63))),
                       x.high << 1 | x.low >> 63 };

    return y;
}

#endif
