/*
 * AES alone: the published answers of FIPS 197, both refusals with the bytes
 * they keep, each direction undoing the other, and NULL with length 0.
 */

#include <stdio.h>
#include <string.h>

#include "check.h"
#include "lagunedo.h"

enum { AES_LARGEST = 40, AES_WHOLE = GUARD + AES_LARGEST + GUARD };

static void aes_check(int holds, const char *what, int direction,
                      size_t key_length, size_t block_length)
{
    if (!counted(holds))
        fprintf(stderr, "c: %s: AES, %s, key of %lu bytes, block of %lu "
                "bytes\n", what, direction_name[direction],
                (unsigned long)key_length, (unsigned long)block_length);
}

static uint32_t aes_call(int direction, const uint8_t *key, size_t key_length,
                         uint8_t *block, size_t block_length)
{
    if (direction == ENCIPHER)
        return lagunedo_aes_encipher(key, key_length, block, block_length);
    return lagunedo_aes_decipher(key, key_length, block, block_length);
}

/* 01, "Numbers returned in place of a result": the key is tested first. */
static uint32_t aes_wanted(size_t key_length, size_t block_length)
{
    if (key_length != 16 && key_length != 32)
        return LAGUNEDO_KEY_LENGTH;
    if (block_length != 16)
        return LAGUNEDO_MESSAGE_LENGTH;
    return LAGUNEDO_DONE;
}

struct aes_answer {
    const char *name;
    const char *key;
    const char *plain;
    const char *enciphered;
};

static const struct aes_answer aes_answers[] = {
    { "FIPS 197 B", "2b7e151628aed2a6abf7158809cf4f3c",
      "3243f6a8885a308d313198a2e0370734", "3925841d02dc09fbdc118597196a0b32" },
    { "FIPS 197 C.1", "000102030405060708090a0b0c0d0e0f",
      "00112233445566778899aabbccddeeff", "69c4e0d86a7b0430d8cdb78070b4c55a" },
    { "FIPS 197 C.3",
      "000102030405060708090a0b0c0d0e0f101112131415161718191a1b1c1d1e1f",
      "00112233445566778899aabbccddeeff", "8ea2b7ca516745bfeafc49904b496089" }
};

static void aes_published(const struct aes_answer *a, int direction)
{
    uint8_t key[32], block[16], wanted[16];
    size_t length = from_hex(a->key, key);
    uint32_t number;

    from_hex(direction == ENCIPHER ? a->plain : a->enciphered, block);
    from_hex(direction == ENCIPHER ? a->enciphered : a->plain, wanted);
    number = aes_call(direction, key, length, block, 16);
    aes_check(number == LAGUNEDO_DONE, a->name, direction, length, 16);
    aes_check(memcmp(block, wanted, 16) == 0, a->name, direction, length, 16);
}

/* A call that does its work changes the block, and the other call undoes it. */
static void aes_worked(int direction, const uint8_t *key, size_t key_length,
                       uint8_t *block, const uint8_t *before)
{
    uint32_t number;

    aes_check(memcmp(block, before, 16) != 0, "block not changed", direction,
              key_length, 16);
    number = aes_call(opposite(direction), key, key_length, block, 16);
    aes_check(number == LAGUNEDO_DONE && memcmp(block, before, 16) == 0,
              "not undone by the other call", direction, key_length, 16);
}

static void aes_lengths(int direction, size_t key_length, size_t block_length)
{
    uint8_t key[AES_LARGEST], key_before[AES_LARGEST];
    uint8_t whole[AES_WHOLE], before[AES_WHOLE];
    uint8_t *block = whole + GUARD;
    uint32_t wanted = aes_wanted(key_length, block_length);
    uint32_t number;

    fill(key, sizeof key, (uint32_t)key_length);
    fill(whole, sizeof whole, (uint32_t)(1000 + block_length));
    memcpy(key_before, key, sizeof key);
    memcpy(before, whole, sizeof whole);

    number = aes_call(direction, key, key_length, block, block_length);
    aes_check(number == wanted, "wrong number", direction, key_length,
              block_length);
    aes_check(memcmp(whole, before, GUARD) == 0 &&
                  memcmp(block + block_length, before + GUARD + block_length,
                         AES_WHOLE - GUARD - block_length) == 0,
              "bytes around the block changed", direction, key_length,
              block_length);
    aes_check(memcmp(key, key_before, sizeof key) == 0, "key changed",
              direction, key_length, block_length);
    if (wanted == LAGUNEDO_DONE)
        aes_worked(direction, key, key_length, block, before + GUARD);
    else
        aes_check(memcmp(block, before + GUARD, block_length) == 0,
                  "refused, but the block changed", direction, key_length,
                  block_length);
}

static void aes_nulls(int direction)
{
    uint8_t key[32], block[16], before[16];

    fill(key, sizeof key, 1);
    fill(block, sizeof block, 2);
    memcpy(before, block, sizeof block);
    aes_check(aes_call(direction, NULL, 0, block, 16) == LAGUNEDO_KEY_LENGTH,
              "NULL key", direction, 0, 16);
    aes_check(memcmp(block, before, sizeof block) == 0,
              "NULL key, block changed", direction, 0, 16);
    aes_check(aes_call(direction, key, 16, NULL, 0) == LAGUNEDO_MESSAGE_LENGTH,
              "NULL block", direction, 16, 0);
    aes_check(aes_call(direction, key, 32, NULL, 0) == LAGUNEDO_MESSAGE_LENGTH,
              "NULL block", direction, 32, 0);
    aes_check(aes_call(direction, NULL, 0, NULL, 0) == LAGUNEDO_KEY_LENGTH,
              "NULL key and block", direction, 0, 0);
}

/* The header's macros leave the library's own functions within reach. */
static void aes_by_address(void)
{
    uint32_t (*own)(const uint8_t *, size_t, uint8_t *, size_t) =
        lagunedo_aes_encipher;
    uint8_t key[16], one[16], two[16];

    fill(key, sizeof key, 3);
    fill(one, sizeof one, 4);
    memcpy(two, one, sizeof one);
    aes_check(own(key, 16, one, 16) == LAGUNEDO_DONE &&
                  lagunedo_aes_encipher(key, 16, two, 16) == LAGUNEDO_DONE &&
                  memcmp(one, two, sizeof one) == 0,
              "by address and by name differ", ENCIPHER, 16, 16);
}

void test_aes(void)
{
    static const size_t key_lengths[] = { 0, 15, 16, 17, 24, 31, 32, 33 };
    static const size_t block_lengths[] = { 0, 15, 16, 17 };
    size_t i, j;
    int direction;

    for (direction = ENCIPHER; direction < DIRECTIONS; direction++) {
        for (i = 0; i < sizeof aes_answers / sizeof aes_answers[0]; i++)
            aes_published(&aes_answers[i], direction);
        for (i = 0; i < sizeof key_lengths / sizeof key_lengths[0]; i++)
            for (j = 0; j < sizeof block_lengths / sizeof block_lengths[0]; j++)
                aes_lengths(direction, key_lengths[i], block_lengths[j]);
        aes_nulls(direction);
    }
    aes_by_address();
}
