#include "bench.h"

#include <stdio.h>
#include <string.h>

#include "block.h"
#include "fill.h"

#define COUNT(array) (sizeof(array) / sizeof(array)[0])

enum { MOST = 65536, MOST_DATA = 1024 };

static uint8_t key[32 + 2 * BLOCK], data[MOST_DATA];
static uint8_t before[MOST], by_peer[MOST], by_us[MOST];
static unsigned long compared;

/* Other bytes for each comparison. */
static void make_input(void)
{
    static uint32_t seed;

    fill(key, sizeof key, ++seed);
    fill(data, sizeof data, ++seed);
    fill(before, sizeof before, ++seed);
    memcpy(by_peer, before, sizeof before);
    memcpy(by_us, before, sizeof before);
}

/* All bytes, so that one written behind the end is seen too. */
static void compare(const char *what)
{
    must(memcmp(by_us, before, BLOCK) != 0, "the library changes nothing");
    must(memcmp(by_peer, by_us, sizeof by_us) == 0, what);
    compared++;
}

/* Around the numbers of blocks that a peer takes at once. */
static void agree_aes(const struct peer *peer, size_t key_length, bool back)
{
    static const size_t blocks[] = { 1, 2, 3, 4, 5, 7, 8, 9, 16, 17, 256 };
    size_t i, length;

    for (i = 0; i < COUNT(blocks); i++) {
        length = blocks[i] * BLOCK;
        make_input();
        aes_set_up(peer, key, key_length, back);
        peer->blocks(back, by_peer, length);
        our_blocks(key, key_length, back, by_us, length);
        compare("AES: a peer gives other bytes than the slice call");
    }
    make_input();
    aes_set_up(peer, key, key_length, back);
    peer->blocks(back, by_peer, BLOCK);
    our_block(key, key_length, back, by_us);
    compare("AES: a peer gives other bytes than the call on one block");
}

static void agree_eme2_at(const struct peer *peer, size_t key1, bool back,
                          size_t data_length, size_t length)
{
    make_input();
    eme2_set_up(peer, key, key1, back);
    eme2(peer, key, key1, back, data, data_length, by_peer, length);
    our_eme2(key, key1 + 2 * BLOCK, back, data, data_length, by_us, length);
    compare("EME2 over a peer's AES gives other bytes");
}

/* Both sides of each edge: a block, a new mask, the limits. */
static void agree_eme2(const struct peer *peer, size_t key1, bool back)
{
    static const size_t lengths[] = { 16,   17,   31,   32,   33,   512,
                                      2047, 2048, 2049, 2063, 2064, 2065,
                                      2096, 4111, 4112, 65535, 65536 };
    static const size_t data_lengths[] = { 0, 1, 15, 16, 17, 32, 1024 };
    size_t i, j;

    for (i = 0; i < COUNT(lengths); i++)
        for (j = 0; j < COUNT(data_lengths); j++)
            agree_eme2_at(peer, key1, back, data_lengths[j], lengths[i]);
}

void agree(const struct peer *peer, const char *who)
{
    size_t key1;
    int back;

    for (key1 = 16; key1 <= 32; key1 += 16) {
        for (back = 0; back < 2; back++) {
            agree_aes(peer, key1, back);
            agree_eme2(peer, key1, back);
        }
    }
    printf("%s: %lu comparisons, all equal", who, compared);
    if (peer->settings != NULL)
        printf(" (%s)", peer->settings());
    putchar('\n');
}

static void print_hex(const uint8_t *bytes, size_t length)
{
    size_t i;

    putchar(' ');
    for (i = 0; i < length; i++)
        printf("%02x", bytes[i]);
}

static void print_eme_at(size_t key_length, bool back, size_t length)
{
    make_input();
    our_eme(key, key_length, back, data, by_us, length);
    printf("%s", back ? "decipher" : "encipher");
    print_hex(key, key_length);
    print_hex(data, BLOCK);
    print_hex(before, length);
    print_hex(by_us, length);
    putchar('\n');
}

void print_eme(void)
{
    static const size_t lengths[] = { 16, 32, 512, 2032, 2048 };
    size_t i, key_length;

    for (i = 0; i < COUNT(lengths); i++) {
        for (key_length = 16; key_length <= 32; key_length += 16) {
            print_eme_at(key_length, false, lengths[i]);
            print_eme_at(key_length, true, lengths[i]);
        }
    }
}
