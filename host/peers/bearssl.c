/*
 * BearSSL's constant-time AES of 64 bits, aes_ct64, which takes four blocks
 * at once. Its public calls offer it in CBC and CTR alone, where enciphering
 * CBC goes one block at a time; so the benchmark takes the steps from which
 * they are made. The archive has them under the names below, and BearSSL's
 * src/inner.h, which is not installed, declares them so.
 */

#include "block.h"
#include "peer.h"

enum { AT_ONCE = 4, SHORT_SCHEDULE = 30, SCHEDULE = 120 };

unsigned br_aes_ct64_keysched(uint64_t *comp_skey, const void *key,
                              size_t key_len);
void br_aes_ct64_skey_expand(uint64_t *skey, unsigned num_rounds,
                             const uint64_t *comp_skey);
void br_aes_ct64_ortho(uint64_t *q);
void br_aes_ct64_interleave_in(uint64_t *q0, uint64_t *q1, const uint32_t *w);
void br_aes_ct64_interleave_out(uint32_t *w, uint64_t q0, uint64_t q1);
void br_aes_ct64_bitslice_encrypt(unsigned num_rounds, const uint64_t *skey,
                                  uint64_t *q);
void br_aes_ct64_bitslice_decrypt(unsigned num_rounds, const uint64_t *skey,
                                  uint64_t *q);

static uint64_t schedule[SCHEDULE];
static unsigned rounds;

/* One schedule serves both ways. */
static void set_up(const uint8_t *key, size_t key_length, unsigned ways)
{
    uint64_t compressed[SHORT_SCHEDULE];

    (void)ways;
    rounds = br_aes_ct64_keysched(compressed, key, key_length);
    br_aes_ct64_skey_expand(schedule, rounds, compressed);
}

static void load(uint64_t *q0, uint64_t *q1, const uint8_t *bytes)
{
    struct block x = block_at(bytes);
    uint32_t words[4] = { (uint32_t)x.low, (uint32_t)(x.low >> 32),
                          (uint32_t)x.high, (uint32_t)(x.high >> 32) };

    br_aes_ct64_interleave_in(q0, q1, words);
}

static void save(uint8_t *bytes, uint64_t q0, uint64_t q1)
{
    uint32_t words[4];
    struct block x;

    br_aes_ct64_interleave_out(words, q0, q1);
    x.low = words[0] | (uint64_t)words[1] << 32;
    x.high = words[2] | (uint64_t)words[3] << 32;
    put_block(bytes, x);
}

/* One to four blocks; the places of the others hold zeros meanwhile. */
static void some_blocks(bool back, uint8_t *bytes, size_t count)
{
    uint64_t q[2 * AT_ONCE] = { 0 };
    size_t i;

    for (i = 0; i < count; i++)
        load(&q[i], &q[i + AT_ONCE], bytes + BLOCK * i);
    br_aes_ct64_ortho(q);
    (back ? br_aes_ct64_bitslice_decrypt
          : br_aes_ct64_bitslice_encrypt)(rounds, schedule, q);
    br_aes_ct64_ortho(q);
    for (i = 0; i < count; i++)
        save(bytes + BLOCK * i, q[i], q[i + AT_ONCE]);
}

static void blocks(bool back, uint8_t *bytes, size_t length)
{
    size_t count = length / BLOCK;

    for (; count > AT_ONCE; count -= AT_ONCE) {
        some_blocks(back, bytes, AT_ONCE);
        bytes += AT_ONCE * BLOCK;
    }
    some_blocks(back, bytes, count);
}

const struct peer bearssl_peer = { "bearssl", set_up, blocks, NULL };
