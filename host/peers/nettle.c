/*
 * Nettle's AES, whose calls take any number of blocks.
 */

#include <nettle/aes.h>

#include "peer.h"

enum { WAYS = 2 };

static struct aes128_ctx short_keys[WAYS];
static struct aes256_ctx long_keys[WAYS];

/* Whether the key set up last is of 32 bytes. */
static bool is_long;

/* As nettle's own set_decrypt_key does, the second way is made of the first. */
static void set_up(const uint8_t *key, size_t key_length, unsigned ways)
{
    is_long = key_length == 32;
    if (is_long) {
        aes256_set_encrypt_key(&long_keys[0], key);
        if (ways & FOR_DEC)
            aes256_invert_key(&long_keys[1], &long_keys[0]);
    } else {
        aes128_set_encrypt_key(&short_keys[0], key);
        if (ways & FOR_DEC)
            aes128_invert_key(&short_keys[1], &short_keys[0]);
    }
}

static void blocks(bool back, uint8_t *bytes, size_t length)
{
    if (is_long && back)
        aes256_decrypt(&long_keys[1], length, bytes, bytes);
    else if (is_long)
        aes256_encrypt(&long_keys[0], length, bytes, bytes);
    else if (back)
        aes128_decrypt(&short_keys[1], length, bytes, bytes);
    else
        aes128_encrypt(&short_keys[0], length, bytes, bytes);
}

const struct peer nettle_peer = { "nettle", set_up, blocks, NULL };
