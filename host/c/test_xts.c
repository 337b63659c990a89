/*
 * XTS-AES: IEEE's short vectors, the refusals in their order with the bytes
 * they keep, each direction undoing the other, single blocks beside the whole
 * deciphering, and NULL with length 0. The long vectors are run in Rust
 * (host/rust/lagunedo/tests/xts.rs).
 *
 * The key, the unit and the block stand in one buffer, so that one comparison
 * sees every byte lent and every byte around it.
 */

#include <stdio.h>
#include <string.h>

#include "check.h"
#include "lagunedo.h"

enum {
    KEY_MOST = 65,
    UNIT_MOST = 65537,
    KEY_AT = GUARD,
    BLOCK_AT = KEY_AT + KEY_MOST + GUARD,
    UNIT_AT = BLOCK_AT + LAGUNEDO_BLOCK_SIZE + GUARD,
    WHOLE = UNIT_AT + UNIT_MOST + GUARD
};

static uint8_t whole[WHOLE], before[WHOLE], deciphered[UNIT_MOST];

static const uint64_t numbers[] = { 0, 255, 1ull << 32, ~0ull };

enum { NUMBERS = sizeof numbers / sizeof numbers[0] };

/* The lengths of one call, and the unit's number. */
struct given {
    size_t key, unit;
    uint64_t number;
};

static void xts_check(int holds, const char *what, struct given n, uint64_t k)
{
    if (!counted(holds))
        fprintf(stderr, "c: %s: XTS, key of %lu bytes, unit of %lu bytes, "
                "number %llu, block %llu\n", what, (unsigned long)n.key,
                (unsigned long)n.unit, (unsigned long long)n.number,
                (unsigned long long)k);
}

static uint32_t xts_lent(int direction, const uint8_t *key, size_t key_length,
                         uint64_t number, uint8_t *unit, size_t unit_length)
{
    if (direction == ENCIPHER)
        return lagunedo_xts_encipher(key, key_length, number, unit,
                                     unit_length);
    return lagunedo_xts_decipher(key, key_length, number, unit, unit_length);
}

static uint32_t xts_call(int direction, struct given n)
{
    return xts_lent(direction, whole + KEY_AT, n.key, n.number,
                    whole + UNIT_AT, n.unit);
}

static uint32_t block_call(struct given n, uint64_t k)
{
    return lagunedo_xts_block(whole + KEY_AT, n.key, n.number,
                              whole + UNIT_AT, n.unit, k, whole + BLOCK_AT);
}

/* 02, order 3: 15, 16. */
static uint32_t xts_wanted(struct given n)
{
    if (n.key != 32 && n.key != 64)
        return LAGUNEDO_XTS_KEY_LENGTH;
    if (n.unit < 16 || n.unit > 65536)
        return LAGUNEDO_UNIT_LENGTH;
    return LAGUNEDO_DONE;
}

/* And 17. */
static uint32_t block_wanted(struct given n, uint64_t k)
{
    uint32_t wanted = xts_wanted(n);
    uint64_t full = n.unit / 16;

    if (wanted == LAGUNEDO_DONE && k >= (n.unit % 16 == 0 ? full : full - 1))
        wanted = LAGUNEDO_BLOCK_NOT_ALONE;
    return wanted;
}

static void xts_fill(uint32_t seed)
{
    fill(whole, WHOLE, seed);
    memcpy(before, whole, WHOLE);
}

/* Whether the buffer holds what it held. */
static int all_kept(void)
{
    return memcmp(whole, before, WHOLE) == 0;
}

/* Whether it does so outside these bytes. */
static int rest_kept(size_t at, size_t length)
{
    size_t end = at + length;

    return memcmp(whole, before, at) == 0 &&
           memcmp(whole + end, before + end, WHOLE - end) == 0;
}

/* IEEE P1619/D16, Annex B, vectors 1 to 3 and 15 to 18. */
struct xts_answer {
    const char *key;
    uint64_t number;
    const char *plain, *enciphered;
};

#define STEALING_KEY \
    "fffefdfcfbfaf9f8f7f6f5f4f3f2f1f0bfbebdbcbbbab9b8b7b6b5b4b3b2b1b0"

static const struct xts_answer xts_answers[] = {
    { "0000000000000000000000000000000000000000000000000000000000000000", 0,
      "0000000000000000000000000000000000000000000000000000000000000000",
      "917cf69ebd68b2ec9b9fe9a3eadda692cd43d2f59598ed858c02c2652fbf922e" },
    { "1111111111111111111111111111111122222222222222222222222222222222",
      0x3333333333ull,
      "4444444444444444444444444444444444444444444444444444444444444444",
      "c454185e6a16936e39334038acef838bfb186fff7480adc4289382ecd6d394f0" },
    { "fffefdfcfbfaf9f8f7f6f5f4f3f2f1f022222222222222222222222222222222",
      0x3333333333ull,
      "4444444444444444444444444444444444444444444444444444444444444444",
      "af85336b597afc1a900b2eb21ec949d292df4c047e0b21532186a5971a227a89" },
    { STEALING_KEY, 0x123456789aull, "000102030405060708090a0b0c0d0e0f10",
      "6c1625db4671522d3d7599601de7ca09ed" },
    { STEALING_KEY, 0x123456789aull, "000102030405060708090a0b0c0d0e0f1011",
      "d069444b7a7e0cab09e24447d24deb1fedbf" },
    { STEALING_KEY, 0x123456789aull,
      "000102030405060708090a0b0c0d0e0f101112",
      "e5df1351c0544ba1350b3363cd8ef4beedbf9d" },
    { STEALING_KEY, 0x123456789aull,
      "000102030405060708090a0b0c0d0e0f10111213",
      "9d84c813f719aa2c7be3f66171c7c5c2edbf9dac" }
};

static void xts_known(const struct xts_answer *a)
{
    uint8_t enciphered[32];
    struct given n;

    xts_fill(0);
    n.key = from_hex(a->key, whole + KEY_AT);
    n.unit = from_hex(a->plain, whole + UNIT_AT);
    n.number = a->number;
    memcpy(before, whole, WHOLE);
    from_hex(a->enciphered, enciphered);

    xts_check(xts_call(ENCIPHER, n) == LAGUNEDO_DONE &&
                  memcmp(whole + UNIT_AT, enciphered, n.unit) == 0,
              "not the known answer", n, 0);
    xts_check(rest_kept(UNIT_AT, n.unit), "bytes around the unit changed", n,
              0);
    xts_check(xts_call(DECIPHER, n) == LAGUNEDO_DONE && all_kept(),
              "known answer not deciphered", n, 0);
}

/* Refused with every byte kept, or done and undone by the other call. */
static void xts_lengths(int direction, struct given n)
{
    uint32_t wanted = xts_wanted(n);

    xts_fill((uint32_t)(n.key + 100 * n.unit + n.number));
    xts_check(xts_call(direction, n) == wanted, "wrong number", n, 0);
    if (wanted != LAGUNEDO_DONE) {
        xts_check(all_kept(), "refused, but bytes changed", n, 0);
        return;
    }
    xts_check(rest_kept(UNIT_AT, n.unit), "bytes around the unit changed", n,
              0);
    xts_check(memcmp(whole + UNIT_AT, before + UNIT_AT, n.unit) != 0,
              "unit not changed", n, 0);
    xts_check(xts_call(opposite(direction), n) == LAGUNEDO_DONE && all_kept(),
              "not undone by the other call", n, 0);
}

/* Block k of the unit in the buffer, of which deciphered is the text. */
static void xts_block_at(struct given n, uint64_t k)
{
    uint32_t wanted = block_wanted(n, k);

    xts_check(block_call(n, k) == wanted, "wrong number for a block", n, k);
    if (wanted != LAGUNEDO_DONE) {
        xts_check(all_kept(), "block refused, but bytes changed", n, k);
        return;
    }
    xts_check(rest_kept(BLOCK_AT, LAGUNEDO_BLOCK_SIZE),
              "bytes around the block changed", n, k);
    xts_check(memcmp(whole + BLOCK_AT, deciphered + 16 * k, 16) == 0,
              "not the block of the whole unit", n, k);
    memcpy(whole, before, WHOLE);
}

/*
 * On both sides of the last block that can be read alone, at the first, and
 * far off: the last three, times 16, come back to 0 and 16 in 64 bits.
 */
static void xts_blocks(struct given n)
{
    uint64_t full = n.unit / 16;
    uint64_t ks[9] = { 0, 1, 0, 0, 0, 0, ~0ull, 1ull << 60, 0 };
    size_t i;

    ks[2] = full - 2;
    ks[3] = full - 1;
    ks[4] = full;
    ks[5] = full + 1;
    ks[8] = (1ull << 60) + 1;
    xts_fill((uint32_t)(n.key + 7 * n.unit + n.number));
    if (xts_wanted(n) == LAGUNEDO_DONE) {
        memcpy(deciphered, whole + UNIT_AT, n.unit);
        lagunedo_xts_decipher(whole + KEY_AT, n.key, n.number, deciphered,
                              n.unit);
    }
    for (i = 0; i < sizeof ks / sizeof ks[0]; i++)
        xts_block_at(n, ks[i]);
}

/* The edges of order 3, in every combination. */
static void xts_edges(void)
{
    static const size_t keys[] = { 0, 31, 32, 33, 48, 63, 64, 65 };
    static const size_t units[] = { 0,  15, 16,    17,    31,    32,
                                    33, 47, 65535, 65536, 65537 };
    struct given n;
    size_t i, j, k;

    for (i = 0; i < sizeof keys / sizeof keys[0]; i++)
        for (j = 0; j < sizeof units / sizeof units[0]; j++)
            for (k = 0; k < NUMBERS; k++) {
                n.key = keys[i];
                n.unit = units[j];
                n.number = numbers[k];
                xts_lengths(ENCIPHER, n);
                xts_lengths(DECIPHER, n);
                xts_blocks(n);
            }
}

/* Every length up to four blocks, then wider and wider steps. */
static void xts_spread(size_t key_length)
{
    struct given n;
    size_t step, i = 0;

    n.key = key_length;
    for (n.unit = 16; n.unit <= 65536; n.unit += step) {
        n.number = numbers[i++ % NUMBERS];
        xts_lengths(ENCIPHER, n);
        xts_lengths(DECIPHER, n);
        xts_blocks(n);
        step = n.unit < 64 ? 1 : n.unit / 4 + 1;
    }
}

/* Every block of units with and without odd bytes. */
static void xts_every_block(size_t unit_length)
{
    struct given n = { 64, 0, 305 };
    uint64_t k;

    n.unit = unit_length;
    xts_fill((uint32_t)unit_length);
    memcpy(deciphered, whole + UNIT_AT, n.unit);
    lagunedo_xts_decipher(whole + KEY_AT, n.key, n.number, deciphered,
                          n.unit);
    for (k = 0; k <= n.unit / 16; k++)
        xts_block_at(n, k);
}

/* A unit enciphered, then deciphered after one byte lent was turned. */
static void xts_turned(const char *what, size_t at, uint64_t added)
{
    struct given n = { 64, 100, 305 };

    xts_fill(5);
    xts_check(xts_call(ENCIPHER, n) == LAGUNEDO_DONE, what, n, 0);
    whole[at] ^= 0x01;
    n.number += added;
    xts_check(xts_call(DECIPHER, n) == LAGUNEDO_DONE &&
                  memcmp(whole + UNIT_AT, before + UNIT_AT, n.unit) != 0,
              what, n, 0);
}

/*
 * Forgery is not detected. A changed block changes itself and no other: that
 * is XTS, and EME2 is otherwise.
 */
static void xts_forged(void)
{
    struct given n = { 32, 64, 305 };

    xts_turned("key of the blocks changed", KEY_AT, 0);
    xts_turned("key of the tweak changed", KEY_AT + 63, 0);
    xts_turned("first byte of the unit changed", UNIT_AT, 0);
    xts_turned("last byte of the unit changed", UNIT_AT + 99, 0);
    xts_turned("another number", GUARD - 1, 1);

    xts_fill(6);
    xts_check(xts_call(ENCIPHER, n) == LAGUNEDO_DONE, "enciphered", n, 0);
    whole[UNIT_AT + 20] ^= 0x01;
    xts_check(xts_call(DECIPHER, n) == LAGUNEDO_DONE &&
                  memcmp(whole + UNIT_AT + 16, before + UNIT_AT + 16, 16) !=
                      0 &&
                  rest_kept(UNIT_AT + 16, 16),
              "one block changed", n, 1);
}

/* Each of the two lent as it is or as NULL with length 0. */
static void xts_nulls(void)
{
    int lent;

    for (lent = 0; lent < 4; lent++) {
        uint8_t *key = lent & 1 ? whole + KEY_AT : NULL;
        uint8_t *unit = lent & 2 ? whole + UNIT_AT : NULL;
        struct given n = { key ? 64 : 0, unit ? 50 : 0, 7 };
        uint32_t wanted = xts_wanted(n);
        int direction;

        for (direction = ENCIPHER; direction < DIRECTIONS; direction++) {
            xts_fill(7);
            xts_check(xts_lent(direction, key, n.key, n.number, unit,
                               n.unit) == wanted,
                      "NULL, wrong number", n, 0);
            xts_check(wanted == LAGUNEDO_DONE ? rest_kept(UNIT_AT, n.unit)
                                              : all_kept(),
                      "NULL, bytes changed", n, 0);
        }
        xts_fill(7);
        xts_check(lagunedo_xts_block(key, n.key, n.number, unit, n.unit, 1,
                                     whole + BLOCK_AT) == wanted,
                  "NULL, wrong number for a block", n, 1);
        xts_check(rest_kept(BLOCK_AT,
                            wanted == LAGUNEDO_DONE ? LAGUNEDO_BLOCK_SIZE
                                                    : 0),
                  "NULL, bytes changed by a block", n, 1);
    }
}

/* The library's own functions, past the header's macros. */
static void xts_by_address(void)
{
    uint32_t (*encipher)(const uint8_t *, size_t, uint64_t, uint8_t *,
                         size_t) = lagunedo_xts_encipher;
    uint32_t (*decipher)(const uint8_t *, size_t, uint64_t, uint8_t *,
                         size_t) = (lagunedo_xts_decipher);
    uint32_t (*block)(const uint8_t *, size_t, uint64_t, const uint8_t *,
                      size_t, uint64_t, uint8_t *) = lagunedo_xts_block;
    const uint8_t *key = whole + KEY_AT;
    uint8_t *unit = whole + UNIT_AT;
    struct given n = { 32, 70, 9 };

    xts_fill(9);
    xts_check(encipher(key, 32, 9, unit, 70) == LAGUNEDO_DONE &&
                  block(key, 32, 9, unit, 70, 2, whole + BLOCK_AT) ==
                      LAGUNEDO_DONE &&
                  memcmp(whole + BLOCK_AT, before + UNIT_AT + 32, 16) == 0,
              "by address, a block", n, 2);
    memcpy(whole + BLOCK_AT, before + BLOCK_AT, 16);
    xts_check(block(key, 32, 9, unit, 70, 3, whole + BLOCK_AT) ==
                      LAGUNEDO_BLOCK_NOT_ALONE &&
                  rest_kept(UNIT_AT, n.unit),
              "by address, a block refused", n, 3);
    xts_check(decipher(key, 32, 9, unit, 70) == LAGUNEDO_DONE && all_kept(),
              "by address, not undone", n, 0);
    xts_check(encipher(key, 48, 9, unit, 15) == LAGUNEDO_XTS_KEY_LENGTH &&
                  decipher(key, 32, 9, unit, 15) == LAGUNEDO_UNIT_LENGTH &&
                  all_kept(),
              "by address, not refused", n, 0);
}

void test_xts(void)
{
    size_t i;

    for (i = 0; i < sizeof xts_answers / sizeof xts_answers[0]; i++)
        xts_known(&xts_answers[i]);
    xts_edges();
    xts_spread(32);
    xts_spread(64);
    xts_every_block(2096);
    xts_every_block(2097);
    xts_forged();
    xts_nulls();
    xts_by_address();
}
