/*
 * EME2-AES over a peer's AES, written from source document 000 and 01 for the
 * benchmark alone. The names are those of 000's Table 1. Deciphering is the same with Dec for
 * Enc in all message steps. AES goes over all full blocks in one call, so
 * that a peer that takes many at once can.
 */

#include "bench.h"

#include <string.h>

#include "block.h"

/* A new mask is made at each block after so many (01: (i-1) mod 128). */
enum { MASKS = 128 };

static struct block crypted(const struct peer *aes, bool back,
                            struct block x)
{
    uint8_t bytes[BLOCK];

    put_block(bytes, x);
    aes->blocks(back, bytes, BLOCK);
    return block_at(bytes);
}

/* 01, Padding. */
static struct block padded(const uint8_t *bytes, size_t length)
{
    uint8_t whole[BLOCK] = { 0 };

    memcpy(whole, bytes, length);
    whole[length] = 0x80;
    return block_at(whole);
}

/* Lines 1 to 11: Enc in both directions. */
static struct block t_star(const struct peer *aes, struct block key3,
                           const uint8_t *ad, size_t length)
{
    struct block sum = { 0, 0 }, last;

    if (length == 0)
        return crypted(aes, false, key3);
    key3 = doubled(key3);
    for (; length > BLOCK; length -= BLOCK, ad += BLOCK) {
        last = crypted(aes, false, xored(key3, block_at(ad)));
        sum = xored(sum, xored(last, key3));
        key3 = doubled(key3);
    }
    if (length < BLOCK) {
        last = padded(ad, length);
        key3 = doubled(key3);
    } else {
        last = block_at(ad);
    }
    last = crypted(aes, false, xored(key3, last));
    return xored(sum, xored(last, key3));
}

/* Lines 12 to 15 and 41 to 45, AES apart. */
static void add_masks(struct block l, uint8_t *bytes, size_t length)
{
    for (; length >= BLOCK; length -= BLOCK, bytes += BLOCK) {
        put_block(bytes, xored(l, block_at(bytes)));
        l = doubled(l);
    }
}

static struct block sum_of(const uint8_t *bytes, size_t length)
{
    struct block sum = { 0, 0 };

    for (; length >= BLOCK; length -= BLOCK, bytes += BLOCK)
        sum = xored(sum, block_at(bytes));
    return length == 0 ? sum : xored(sum, padded(bytes, length));
}

/* Lines 24 to 32 and 36 to 39: CCC2 and on, and their sum. */
static struct block mix_rest(const struct peer *aes, bool back,
                             struct block m1, uint8_t *bytes, size_t full)
{
    struct block sum = { 0, 0 }, m = m1, mp, mc, ccc;
    size_t i;

    for (i = 1; i < full; i++) {
        ccc = block_at(bytes + i * BLOCK);
        if (i % MASKS > 0) {
            m = doubled(m);
            ccc = xored(ccc, m);
        } else {
            mp = xored(ccc, m1);
            mc = crypted(aes, back, mp);
            m = xored(mp, mc);
            ccc = xored(mc, m1);
        }
        put_block(bytes + i * BLOCK, ccc);
        sum = xored(sum, ccc);
    }
    return sum;
}

/* Lines 18 to 40. */
static void mix(const struct peer *aes, bool back, struct block tag,
                uint8_t *bytes, size_t length)
{
    size_t left = length % BLOCK, full = length / BLOCK, i;
    uint8_t *rest = bytes + full * BLOCK, mm[BLOCK];
    struct block mp = xored(sum_of(bytes, length), tag);
    struct block mc1 = crypted(aes, back, mp), ccc1;

    if (left > 0) {
        put_block(mm, mc1);
        mc1 = crypted(aes, back, mc1);
        for (i = 0; i < left; i++)
            rest[i] ^= mm[i];
    }
    ccc1 = mix_rest(aes, back, xored(mp, mc1), bytes, full);
    ccc1 = xored(ccc1, sum_of(rest, left));
    put_block(bytes, xored(xored(mc1, ccc1), tag));
}

void eme2_set_up(const struct peer *aes, const uint8_t *key, size_t key1,
                 bool back)
{
    aes->set_up(key, key1, back ? FOR_ENC | FOR_DEC : FOR_ENC);
}

void eme2(const struct peer *aes, const uint8_t *key, size_t key1, bool back,
          const uint8_t *ad, size_t ad_length, uint8_t *message,
          size_t length)
{
    struct block key2 = block_at(key + key1);
    struct block key3 = block_at(key + key1 + BLOCK);
    struct block tag = t_star(aes, key3, ad, ad_length);
    size_t full = length - length % BLOCK;

    add_masks(key2, message, full);
    aes->blocks(back, message, full);
    mix(aes, back, tag, message, length);
    aes->blocks(back, message, full);
    add_masks(key2, message, full);
}
