#include "bench.h"
#include "block.h"
#include "lagunedo.h"

/* The two calls of libprobe.a, which are no part of lagunedo.h. */
uint32_t lagunedo_probe_aes_blocks(const uint8_t *key, size_t key_length,
                                   bool back, uint8_t *bytes, size_t length);
uint32_t lagunedo_probe_wide(const uint8_t *key, size_t key_length, bool back,
                             const uint8_t *l, size_t l_length,
                             const uint8_t *t, size_t t_length,
                             uint8_t *message, size_t message_length);

static void done(uint32_t number)
{
    must(number == LAGUNEDO_DONE, "the library refuses a call");
}

void our_block(const uint8_t *key, size_t key_length, bool back,
               uint8_t *block)
{
    done(back ? lagunedo_aes_decipher(key, key_length, block, BLOCK)
              : lagunedo_aes_encipher(key, key_length, block, BLOCK));
}

void our_blocks(const uint8_t *key, size_t key_length, bool back,
                uint8_t *bytes, size_t length)
{
    done(lagunedo_probe_aes_blocks(key, key_length, back, bytes, length));
}

void our_eme2(const uint8_t *key, size_t key_length, bool back,
              const uint8_t *ad, size_t ad_length, uint8_t *message,
              size_t length)
{
    done(back ? lagunedo_eme2_decipher(key, key_length, ad, ad_length,
                                       message, length)
              : lagunedo_eme2_encipher(key, key_length, ad, ad_length,
                                       message, length));
}

void our_eme(const uint8_t *key, size_t key_length, bool back,
             const uint8_t *tweak, uint8_t *message, size_t length)
{
    uint8_t l[BLOCK] = { 0 };

    our_block(key, key_length, false, l);
    put_block(l, doubled(block_at(l)));
    done(lagunedo_probe_wide(key, key_length, back, l, BLOCK, tweak, BLOCK,
                             message, length));
}
