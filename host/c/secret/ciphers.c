/*
 * AES, EME2-AES and XTS-AES. The key, the message (of XTS the unit) and the
 * associated data are secret; their lengths are not, nor are a unit's number
 * and which of its blocks is asked for. What a call answers is not either,
 * and a message that was worked on is secret to the last bit.
 */

#include <stdio.h>
#include <string.h>

#include "fill.h"
#include "lagunedo.h"
#include "secret.h"

static struct lent {
    uint8_t key[LAGUNEDO_EME2_KEY_256], ad[LAGUNEDO_DATA_MOST];
    uint8_t message[LAGUNEDO_MESSAGE_MOST];
} now, wanted;

struct lengths {
    size_t key, ad, message;
};

static uint32_t aes_encipher(struct lengths n)
{
    return lagunedo_aes_encipher(now.key, n.key, now.message, n.message);
}

static uint32_t aes_decipher(struct lengths n)
{
    return lagunedo_aes_decipher(now.key, n.key, now.message, n.message);
}

static uint32_t eme2_encipher(struct lengths n)
{
    return lagunedo_eme2_encipher(now.key, n.key, now.ad, n.ad, now.message,
                                  n.message);
}

static uint32_t eme2_decipher(struct lengths n)
{
    return lagunedo_eme2_decipher(now.key, n.key, now.ad, n.ad, now.message,
                                  n.message);
}

enum { UNIT = 65537, BLOCK = 13 };

static uint32_t xts_encipher(struct lengths n)
{
    return lagunedo_xts_encipher(now.key, n.key, UNIT, now.message, n.message);
}

static uint32_t xts_decipher(struct lengths n)
{
    return lagunedo_xts_decipher(now.key, n.key, UNIT, now.message, n.message);
}

/* The unit stands where the others have associated data. */
static uint32_t xts_block(struct lengths n)
{
    return lagunedo_xts_block(now.key, n.key, UNIT, now.ad, n.ad, BLOCK,
                              now.message);
}

struct cipher {
    const char *name;
    uint32_t (*call)(struct lengths n);
};

static const struct cipher aes[] = {
    { "lagunedo_aes_encipher", aes_encipher },
    { "lagunedo_aes_decipher", aes_decipher }
};

static const struct cipher eme2[] = {
    { "lagunedo_eme2_encipher", eme2_encipher },
    { "lagunedo_eme2_decipher", eme2_decipher }
};

static const struct cipher xts[] = {
    { "lagunedo_xts_encipher", xts_encipher },
    { "lagunedo_xts_decipher", xts_decipher }
};

static const struct cipher alone = { "lagunedo_xts_block", xts_block };

enum { WAYS = 2, SEED = 1701 };

/*
 * The call on open bytes says what it has to leave; then the same call is
 * made on the same bytes, hidden.
 */
static void compare(const struct cipher *cipher, struct lengths n,
                    uint32_t number)
{
    uint32_t answer;

    fill((uint8_t *)&now, sizeof now, SEED);
    checked(cipher->call(n) == number, cipher->name, "open bytes");
    memcpy(&wanted, &now, sizeof wanted);

    fill((uint8_t *)&now, sizeof now, SEED);
    hide(&now, sizeof now);
    answer = cipher->call(n);
    checked(none_hidden(&answer, sizeof answer) && answer == number,
            cipher->name, "the answer");
    checked(all_hidden(now.message, n.message), cipher->name,
            "a message that is not made of the secret bytes");
    show(&now, sizeof now);
    checked(memcmp(&now, &wanted, sizeof now) == 0, cipher->name,
            "other bytes than with nothing hidden");
}

static void aes_way(const struct cipher *cipher)
{
    static const struct lengths taken[] = { { 16, 0, 16 }, { 32, 0, 16 } };

    compare(cipher, taken[0], LAGUNEDO_DONE);
    compare(cipher, taken[1], LAGUNEDO_DONE);
}

/*
 * Fewer than three blocks go one by one, more of them together and up to
 * sixteen at once; block 129 begins a new mask; the last may be short.
 */
static void eme2_way(const struct cipher *cipher)
{
    static const size_t keys[] = { LAGUNEDO_EME2_KEY_128,
                                   LAGUNEDO_EME2_KEY_256 };
    static const size_t ads[] = { 0, 1, 16, 33, 1024 };
    static const size_t messages[] = { 16,  17,  31,  32,   47,   48,   63,
                                       255, 256, 257, 287,  2048, 2063, 2065,
                                       2096, 4113, 65536 };
    struct lengths n;
    size_t k, a, m;

    for (k = 0; k < sizeof keys / sizeof keys[0]; k++)
        for (a = 0; a < sizeof ads / sizeof ads[0]; a++)
            for (m = 0; m < sizeof messages / sizeof messages[0]; m++) {
                n.key = keys[k];
                n.ad = ads[a];
                n.message = messages[m];
                compare(cipher, n, LAGUNEDO_DONE);
            }
}

/* Stealing works on the last two blocks one by one. */
static void xts_way(const struct cipher *cipher)
{
    static const size_t messages[] = { 16,  17,  31,  32,  33,   47,  48,
                                       255, 256, 257, 287, 2096, 4113, 65536 };
    struct lengths n = { 0, 0, 0 };
    size_t m;

    for (n.key = LAGUNEDO_XTS_KEY_128; n.key <= LAGUNEDO_XTS_KEY_256; n.key *= 2)
        for (m = 0; m < sizeof messages / sizeof messages[0]; m++) {
            n.message = messages[m];
            compare(cipher, n, LAGUNEDO_DONE);
        }
}

/* A block of units that end with it, after it and with a short block. */
static void xts_alone(void)
{
    static const size_t units[] = { 224, 240, 249, 1024 };
    struct lengths n = { 0, 0, 16 };
    size_t u;

    for (n.key = LAGUNEDO_XTS_KEY_128; n.key <= LAGUNEDO_XTS_KEY_256; n.key *= 2)
        for (u = 0; u < sizeof units / sizeof units[0]; u++) {
            n.ad = units[u];
            compare(&alone, n, LAGUNEDO_DONE);
        }
}

/* A refused call leaves the secret bytes, and chooses by lengths alone. */
static void refusals(void)
{
    static const struct lengths key = { 47, 16, 32 }, message = { 48, 16, 15 };
    static const struct lengths block = { 16, 0, 15 }, unit = { 32, 0, 15 };
    static const struct lengths last = { 32, 239, 16 };
    size_t way;

    for (way = 0; way < WAYS; way++) {
        compare(&aes[way], key, LAGUNEDO_KEY_LENGTH);
        compare(&aes[way], block, LAGUNEDO_MESSAGE_LENGTH);
        compare(&eme2[way], key, LAGUNEDO_KEY_LENGTH);
        compare(&eme2[way], message, LAGUNEDO_MESSAGE_LENGTH);
        compare(&xts[way], key, LAGUNEDO_XTS_KEY_LENGTH);
        compare(&xts[way], unit, LAGUNEDO_UNIT_LENGTH);
    }
    compare(&alone, last, LAGUNEDO_BLOCK_NOT_ALONE);
}

void secret_ciphers(void)
{
    size_t way;

    for (way = 0; way < WAYS; way++) {
        aes_way(&aes[way]);
        eme2_way(&eme2[way]);
        xts_way(&xts[way]);
    }
    xts_alone();
    refusals();
}

void cipher_names(void)
{
    size_t way;

    for (way = 0; way < WAYS; way++)
        printf("%s\n%s\n%s\n", aes[way].name, eme2[way].name,
               xts[way].name);
    printf("%s\n", alone.name);
}
