/*
 * SHA-256, in the names of FIPS 180-4: Ch, Maj, the four sigmas, W, K and the
 * working variables a to h, which are v[0] to v[7] here.
 */

#include <string.h>

#include "sha256.h"

enum { BLOCK = 64, WORDS = 8, ROUNDS = 64, LENGTH_SIZE = 8 };

/* 4.2.2: the first 32 bits of the fractional parts of the cube roots of the
 * first 64 primes. */
static const uint32_t K[ROUNDS] = {
    0x428a2f98, 0x71374491, 0xb5c0fbcf, 0xe9b5dba5, 0x3956c25b, 0x59f111f1,
    0x923f82a4, 0xab1c5ed5, 0xd807aa98, 0x12835b01, 0x243185be, 0x550c7dc3,
    0x72be5d74, 0x80deb1fe, 0x9bdc06a7, 0xc19bf174, 0xe49b69c1, 0xefbe4786,
    0x0fc19dc6, 0x240ca1cc, 0x2de92c6f, 0x4a7484aa, 0x5cb0a9dc, 0x76f988da,
    0x983e5152, 0xa831c66d, 0xb00327c8, 0xbf597fc7, 0xc6e00bf3, 0xd5a79147,
    0x06ca6351, 0x14292967, 0x27b70a85, 0x2e1b2138, 0x4d2c6dfc, 0x53380d13,
    0x650a7354, 0x766a0abb, 0x81c2c92e, 0x92722c85, 0xa2bfe8a1, 0xa81a664b,
    0xc24b8b70, 0xc76c51a3, 0xd192e819, 0xd6990624, 0xf40e3585, 0x106aa070,
    0x19a4c116, 0x1e376c08, 0x2748774c, 0x34b0bcb5, 0x391c0cb3, 0x4ed8aa4a,
    0x5b9cca4f, 0x682e6ff3, 0x748f82ee, 0x78a5636f, 0x84c87814, 0x8cc70208,
    0x90befffa, 0xa4506ceb, 0xbef9a3f7, 0xc67178f2
};

/* 5.3.3: those of the square roots of the first eight primes. */
static const uint32_t initial[WORDS] = {
    0x6a09e667, 0xbb67ae85, 0x3c6ef372, 0xa54ff53a,
    0x510e527f, 0x9b05688c, 0x1f83d9ab, 0x5be0cd19
};

static uint32_t rotr(uint32_t x, unsigned n)
{
    return x >> n | x << (32 - n);
}

static uint32_t Ch(uint32_t x, uint32_t y, uint32_t z)
{
    return (x & y) ^ (~x & z);
}

static uint32_t Maj(uint32_t x, uint32_t y, uint32_t z)
{
    return (x & y) ^ (x & z) ^ (y & z);
}

static uint32_t Sigma0(uint32_t x)
{
    return rotr(x, 2) ^ rotr(x, 13) ^ rotr(x, 22);
}

static uint32_t Sigma1(uint32_t x)
{
    return rotr(x, 6) ^ rotr(x, 11) ^ rotr(x, 25);
}

static uint32_t sigma0(uint32_t x)
{
    return rotr(x, 7) ^ rotr(x, 18) ^ x >> 3;
}

static uint32_t sigma1(uint32_t x)
{
    return rotr(x, 17) ^ rotr(x, 19) ^ x >> 10;
}

static uint32_t word_at(const uint8_t *bytes)
{
    return (uint32_t)bytes[0] << 24 | (uint32_t)bytes[1] << 16 |
           (uint32_t)bytes[2] << 8 | bytes[3];
}

/* 6.2.2, step 1. */
static void schedule(uint32_t W[ROUNDS], const uint8_t *block)
{
    size_t t;

    for (t = 0; t < 16; t++)
        W[t] = word_at(block + 4 * t);
    for (; t < ROUNDS; t++)
        W[t] = sigma1(W[t - 2]) + W[t - 7] + sigma0(W[t - 15]) + W[t - 16];
}

/* 6.2.2, steps 2 to 4, on one block. */
static void compress(uint32_t H[WORDS], const uint8_t *block)
{
    uint32_t W[ROUNDS], v[WORDS], T1, T2;
    size_t t;

    schedule(W, block);
    memcpy(v, H, sizeof v);
    for (t = 0; t < ROUNDS; t++) {
        T1 = v[7] + Sigma1(v[4]) + Ch(v[4], v[5], v[6]) + K[t] + W[t];
        T2 = Sigma0(v[0]) + Maj(v[0], v[1], v[2]);
        memmove(v + 1, v, 7 * sizeof *v);
        v[4] += T1;
        v[0] = T1 + T2;
    }
    for (t = 0; t < WORDS; t++)
        H[t] += v[t];
}

/* 5.1.1: a bit 1, zeros, and the length in bits, to the end of a block. */
static void compress_last(uint32_t H[WORDS], const uint8_t *rest,
                          size_t length, uint64_t bits)
{
    uint8_t padded[2 * BLOCK] = { 0 };
    size_t size = length + 1 + LENGTH_SIZE > BLOCK ? 2 * BLOCK : BLOCK, i;

    memcpy(padded, rest, length);
    padded[length] = 0x80;
    for (i = 0; i < LENGTH_SIZE; i++)
        padded[size - 1 - i] = (uint8_t)(bits >> (8 * i));
    for (i = 0; i < size; i += BLOCK)
        compress(H, padded + i);
}

void sha256(const uint8_t *bytes, size_t length, uint8_t digest[SHA256_SIZE])
{
    uint32_t H[WORDS];
    size_t i, whole = length - length % BLOCK;

    memcpy(H, initial, sizeof H);
    for (i = 0; i < whole; i += BLOCK)
        compress(H, bytes + i);
    compress_last(H, bytes + whole, length - whole, (uint64_t)length * 8);
    for (i = 0; i < SHA256_SIZE; i++)
        digest[i] = (uint8_t)(H[i / 4] >> (24 - 8 * (i % 4)));
}
