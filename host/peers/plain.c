/*
 * AES as the textbooks write it in C: the state is 16 bytes in the order of
 * FIPS 197, section 3.4 (row r and column c at r + 4c), one table for each
 * direction, and doubling in the byte field in place of further tables.
 *
 * It is the one peer that nobody ships: what a programmer writes who has the
 * standard and an afternoon.
 */

#include <string.h>

#include "block.h"
#include "peer.h"

enum { MOST_ROUNDS = 14 };

/* The round keys of section 5.2, one after the other. */
struct schedule {
    unsigned rounds;
    uint8_t key[(MOST_ROUNDS + 1) * BLOCK];
};

/* Section 4.2: twice b in the byte field, without a branch. */
static uint8_t xtime(uint8_t b)
{
    return (uint8_t)((b << 1) ^ (-(b >> 7) & 0x1b));
}

static uint8_t rotated(uint8_t b, unsigned by)
{
    return (uint8_t)(b << by | b >> (8 - by));
}

/* Sections 5.1.1 and 5.3.2. */
static uint8_t sbox[256], inverse_sbox[256];

/*
 * The powers of 3 are all bytes but 0, so b goes through them, and its inverse
 * through those of 3's inverse, f6.
 */
static void make_tables(void)
{
    uint8_t b = 1, inverse = 1, s;

    do {
        s = inverse ^ rotated(inverse, 1) ^ rotated(inverse, 2) ^
            rotated(inverse, 3) ^ rotated(inverse, 4) ^ 0x63;
        sbox[b] = s;
        inverse_sbox[s] = b;
        b = b ^ xtime(b);
        inverse ^= (uint8_t)(inverse << 1);
        inverse ^= (uint8_t)(inverse << 2);
        inverse ^= (uint8_t)(inverse << 4);
        inverse ^= (uint8_t)(-(inverse >> 7) & 0x09);
    } while (b != 1);
    sbox[0] = 0x63;
    inverse_sbox[0x63] = 0;
}

/* Section 5.2: the key comes first, then each word from the one before it. */
static void expand(struct schedule *s, const uint8_t *key, size_t key_length)
{
    size_t end, at;
    uint8_t constant = 1;
    uint8_t word[4];

    s->rounds = (unsigned)(key_length / 4 + 6);
    end = (s->rounds + 1) * (size_t)BLOCK;
    memcpy(s->key, key, key_length);
    for (at = key_length; at < end; at += 4) {
        memcpy(word, s->key + at - 4, 4);
        if (at % key_length == 0) {
            uint8_t first = word[0];

            word[0] = (uint8_t)(sbox[word[1]] ^ constant);
            word[1] = sbox[word[2]];
            word[2] = sbox[word[3]];
            word[3] = sbox[first];
            constant = xtime(constant);
        } else if (key_length == 32 && at % key_length == 16) {
            word[0] = sbox[word[0]];
            word[1] = sbox[word[1]];
            word[2] = sbox[word[2]];
            word[3] = sbox[word[3]];
        }
        s->key[at] = s->key[at - key_length] ^ word[0];
        s->key[at + 1] = s->key[at - key_length + 1] ^ word[1];
        s->key[at + 2] = s->key[at - key_length + 2] ^ word[2];
        s->key[at + 3] = s->key[at - key_length + 3] ^ word[3];
    }
}

/*
 * SubBytes, ShiftRows, MixColumns and AddRoundKey, a column at a time: row r
 * comes from r columns to the right, and 2a + 3b + c + d is a plus twice
 * (a + b) plus the sum of the whole column.
 */
static void full_round(uint8_t *restrict to, const uint8_t *restrict from,
                       const uint8_t *restrict key)
{
    size_t i;

    for (i = 0; i < BLOCK; i += 4) {
        uint8_t a = sbox[from[i]];
        uint8_t b = sbox[from[(i + 5) % BLOCK]];
        uint8_t c = sbox[from[(i + 10) % BLOCK]];
        uint8_t d = sbox[from[(i + 15) % BLOCK]];
        uint8_t sum = a ^ b ^ c ^ d;

        to[i] = key[i] ^ a ^ sum ^ xtime(a ^ b);
        to[i + 1] = key[i + 1] ^ b ^ sum ^ xtime(b ^ c);
        to[i + 2] = key[i + 2] ^ c ^ sum ^ xtime(c ^ d);
        to[i + 3] = key[i + 3] ^ d ^ sum ^ xtime(d ^ a);
    }
}

/*
 * InvShiftRows, InvSubBytes, AddRoundKey and InvMixColumns in the same way.
 * The matrix of 14 11 13 9 is that of MixColumns times that of 5 0 4 0, so
 * four times the sum of every other byte goes in before mixing.
 */
static void full_inverse_round(uint8_t *restrict to,
                               const uint8_t *restrict from,
                               const uint8_t *restrict key)
{
    size_t i;

    for (i = 0; i < BLOCK; i += 4) {
        uint8_t a = key[i] ^ inverse_sbox[from[i]];
        uint8_t b = key[i + 1] ^ inverse_sbox[from[(i + 13) % BLOCK]];
        uint8_t c = key[i + 2] ^ inverse_sbox[from[(i + 10) % BLOCK]];
        uint8_t d = key[i + 3] ^ inverse_sbox[from[(i + 7) % BLOCK]];
        uint8_t even = xtime(xtime(a ^ c));
        uint8_t odd = xtime(xtime(b ^ d));
        uint8_t sum = a ^ b ^ c ^ d ^ xtime(even ^ odd);

        to[i] = a ^ even ^ sum ^ xtime(a ^ b);
        to[i + 1] = b ^ odd ^ sum ^ xtime(b ^ c);
        to[i + 2] = c ^ even ^ sum ^ xtime(c ^ d);
        to[i + 3] = d ^ odd ^ sum ^ xtime(d ^ a);
    }
}

/* The last round has no mixing. */
static void last_round(uint8_t *restrict to, const uint8_t *restrict from,
                       const uint8_t *restrict key)
{
    size_t i;

    for (i = 0; i < BLOCK; i++)
        to[i] = key[i] ^ sbox[from[(i + 4 * (i % 4)) % BLOCK]];
}

static void last_inverse_round(uint8_t *restrict to,
                               const uint8_t *restrict from,
                               const uint8_t *restrict key)
{
    size_t i;

    for (i = 0; i < BLOCK; i++)
        to[i] = key[i] ^ inverse_sbox[from[(i + 12 * (i % 4)) % BLOCK]];
}

/*
 * Section 5.1. The state goes back and forth between two arrays, so that no
 * round copies it; the full rounds are 9 or 13, pairs and one more.
 */
static void encipher(const struct schedule *s, uint8_t *block)
{
    uint8_t one[BLOCK], two[BLOCK];
    const uint8_t *key = s->key;
    unsigned pairs;
    size_t i;

    for (i = 0; i < BLOCK; i++)
        one[i] = block[i] ^ key[i];
    for (pairs = s->rounds / 2 - 1; pairs > 0; pairs--) {
        full_round(two, one, key + BLOCK);
        full_round(one, two, key + 2 * BLOCK);
        key += 2 * BLOCK;
    }
    full_round(two, one, key + BLOCK);
    last_round(block, two, key + 2 * BLOCK);
}

/* Section 5.3, with the round keys from the last to the first. */
static void decipher(const struct schedule *s, uint8_t *block)
{
    uint8_t one[BLOCK], two[BLOCK];
    const uint8_t *key = s->key + s->rounds * BLOCK;
    unsigned pairs;
    size_t i;

    for (i = 0; i < BLOCK; i++)
        one[i] = block[i] ^ key[i];
    for (pairs = s->rounds / 2 - 1; pairs > 0; pairs--) {
        full_inverse_round(two, one, key - BLOCK);
        full_inverse_round(one, two, key - 2 * BLOCK);
        key -= 2 * BLOCK;
    }
    full_inverse_round(two, one, key - BLOCK);
    last_inverse_round(block, two, key - 2 * BLOCK);
}

static struct schedule schedule;

/* One schedule serves both ways. */
static void set_up(const uint8_t *key, size_t key_length, unsigned ways)
{
    (void)ways;
    if (sbox[0] == 0)
        make_tables();
    expand(&schedule, key, key_length);
}

static void blocks(bool back, uint8_t *bytes, size_t length)
{
    size_t at;

    for (at = 0; at < length; at += BLOCK)
        (back ? decipher : encipher)(&schedule, bytes + at);
}

const struct peer plain_peer = { "plain", set_up, blocks, NULL };
