/*
 * EME2-AES: known answers, the three refusals with the bytes they keep, each
 * direction undoing the other, and NULL with length 0.
 *
 * The key, the associated data and the message stand in one buffer, so that
 * one comparison sees every byte lent and every byte around it.
 */

#include <stdio.h>
#include <string.h>

#include "check.h"
#include "lagunedo.h"

enum {
    KEY_MOST = 65,
    AD_MOST = 1025,
    MESSAGE_MOST = 65537,
    KEY_AT = GUARD,
    AD_AT = KEY_AT + KEY_MOST + GUARD,
    MESSAGE_AT = AD_AT + AD_MOST + GUARD,
    WHOLE = MESSAGE_AT + MESSAGE_MOST + GUARD
};

static uint8_t whole[WHOLE], before[WHOLE];

/* The lengths of one call. */
struct lengths {
    size_t key, ad, message;
};

static void eme2_check(int holds, const char *what, int direction,
                       struct lengths n)
{
    if (!counted(holds))
        fprintf(stderr, "c: %s: EME2, %s, key of %lu bytes, associated data "
                "of %lu bytes, message of %lu bytes\n", what,
                direction_name[direction], (unsigned long)n.key,
                (unsigned long)n.ad, (unsigned long)n.message);
}

static uint32_t eme2_lent(int direction, const uint8_t *key,
                          size_t key_length, const uint8_t *ad,
                          size_t ad_length, uint8_t *message,
                          size_t message_length)
{
    if (direction == ENCIPHER)
        return lagunedo_eme2_encipher(key, key_length, ad, ad_length, message,
                                      message_length);
    return lagunedo_eme2_decipher(key, key_length, ad, ad_length, message,
                                  message_length);
}

/* The call on what the buffer holds. Empty associated data is lent as NULL. */
static uint32_t eme2_call(int direction, struct lengths n)
{
    return eme2_lent(direction, whole + KEY_AT, n.key,
                     n.ad == 0 ? NULL : whole + AD_AT, n.ad,
                     whole + MESSAGE_AT, n.message);
}

/* 01, "Order: transform 1, 2, 3". */
static uint32_t eme2_wanted(struct lengths n)
{
    if (n.key != 48 && n.key != 64)
        return LAGUNEDO_KEY_LENGTH;
    if (n.message < 16 || n.message > 65536)
        return LAGUNEDO_MESSAGE_LENGTH;
    if (n.ad > 1024)
        return LAGUNEDO_DATA_LENGTH;
    return LAGUNEDO_DONE;
}

static void eme2_fill(uint32_t seed)
{
    fill(whole, WHOLE, seed);
    memcpy(before, whole, WHOLE);
}

/* Whether the buffer holds what it held. */
static int all_kept(void)
{
    return memcmp(whole, before, WHOLE) == 0;
}

/* Whether it does so outside the message. */
static int rest_kept(size_t message_length)
{
    size_t end = MESSAGE_AT + message_length;

    return memcmp(whole, before, MESSAGE_AT) == 0 &&
           memcmp(whole + end, before + end, WHOLE - end) == 0;
}

static int message_kept(size_t message_length)
{
    return memcmp(whole + MESSAGE_AT, before + MESSAGE_AT, message_length) ==
           0;
}

/*
 * Answers of the project's own second implementation (host/rust/second); no
 * vectors published for EME2 are at hand. The key is made by fill from seed
 * 1, the associated data from seed 2 and the message from seed 3. Given are
 * the front of what the message is enciphered to, its end, and a digest of
 * the whole of it. Up to 48 bytes the front is the whole.
 */
struct eme2_answer {
    struct lengths n;
    const char *front;
    const char *end;
    uint32_t digest;
};

static const struct eme2_answer eme2_answers[] = {
    { { 48, 0, 16 }, "f2e39aa56d14ad854ab1b301f1207e83", "", 0x75822ba7 },
    { { 64, 1, 16 }, "78528d009bfa0a471e1d8422b6061db9", "", 0x87c9e0b5 },
    { { 48, 1, 17 }, "9e89bbc245a513acaa939dcda4cb319696", "", 0xeabdbb53 },
    { { 64, 16, 17 }, "e24eabc42a2b8374e58b1336c8c30325f0", "", 0x7b8f0a0e },
    { { 48, 16, 33 },
      "c084a53d34182d6e90a2e2c89a023bfba5dac0fb44dbf6d86059c5567f1f7e0988",
      "", 0xbf175e9c },
    { { 64, 17, 33 },
      "659882b9ac169db805bfc741cfe4c11b3add8e50eab1002c20885e4196303e0277",
      "", 0x4f4108c1 },
    { { 48, 17, 48 },
      "a4ac7e7c1271e4ed2ee8dfdb9820d866ef2aaae35ae44c18"
      "2cb490c8b1d72f2b0600d66ce4dfc56a28c0ac6a27922625", "", 0x121e604d },
    { { 64, 0, 48 },
      "266b83eae6e76376f84ea3beafafd6295821e31267e24b25"
      "0ad0fb37b9686c0ee63b6336303711d7ba3a67f42a403a7e", "", 0xde087b3f },
    { { 48, 16, 2064 }, "b28ae559b74c9e2eb2bae2df8921ac7d",
      "5e0f1c2322a4f3a28de3d15c9e79f6aa", 0x6b23643c },
    { { 64, 1, 2064 }, "9cfc13ee23e2db973fe1eb4ec360288a",
      "d1a5dacf176a6ccddeffbc331e2f0dae", 0xd791dcd0 },
    { { 48, 0, 2065 }, "da97449be1f7aa1b3d27e51d628e41c6",
      "8b3bbe9e1666eab23964e0280df545f8", 0xc78ccbdc },
    { { 64, 17, 2065 }, "ca2ca3888cc9c7b748a3fa1d20848424",
      "6592045ecc0f7e65d77f3acc54f5c2b3", 0x567fe049 },
    { { 48, 15, 65536 }, "62c19e1abdc58404beace469f3b907b8",
      "a43c294ffba9b501094c3a8779afe4e4", 0xc5660932 },
    { { 64, 1024, 65536 }, "357cd2a126213c0d69980392da7c1c5d",
      "57b0d1d40320b0a117647e2d8ca6ade3", 0x7217e590 }
};

static void eme2_known(const struct eme2_answer *a)
{
    uint8_t front[48], end[48];
    size_t front_length = from_hex(a->front, front);
    size_t end_length = from_hex(a->end, end);
    const uint8_t *message = whole + MESSAGE_AT;

    eme2_fill(0);
    fill(whole + KEY_AT, a->n.key, 1);
    fill(whole + AD_AT, a->n.ad, 2);
    fill(whole + MESSAGE_AT, a->n.message, 3);
    memcpy(before, whole, WHOLE);

    eme2_check(eme2_call(ENCIPHER, a->n) == LAGUNEDO_DONE,
               "known answer refused", ENCIPHER, a->n);
    eme2_check(rest_kept(a->n.message), "bytes around the message changed",
               ENCIPHER, a->n);
    eme2_check(memcmp(message, front, front_length) == 0 &&
                   memcmp(message + a->n.message - end_length, end,
                          end_length) == 0,
               "not the known answer", ENCIPHER, a->n);
    eme2_check(digest(message, a->n.message) == a->digest,
               "not the known digest", ENCIPHER, a->n);
    eme2_check(eme2_call(DECIPHER, a->n) == LAGUNEDO_DONE && all_kept(),
               "known answer not deciphered", DECIPHER, a->n);
}

/* Refused with every byte kept, or done and undone by the other call. */
static void eme2_lengths(int direction, struct lengths n)
{
    uint32_t wanted = eme2_wanted(n);

    eme2_fill((uint32_t)(n.key + 100 * n.ad + 200000 * n.message));
    eme2_check(eme2_call(direction, n) == wanted, "wrong number", direction,
               n);
    if (wanted != LAGUNEDO_DONE) {
        eme2_check(all_kept(), "refused, but bytes changed", direction, n);
        return;
    }
    eme2_check(rest_kept(n.message), "bytes around the message changed",
               direction, n);
    eme2_check(!message_kept(n.message), "message not changed", direction, n);
    eme2_check(eme2_call(opposite(direction), n) == LAGUNEDO_DONE &&
                   all_kept(),
               "not undone by the other call", direction, n);
}

/* 01, "Both sides of each edge", in every combination. */
static void eme2_edges(int direction)
{
    static const size_t keys[] = { 0, 47, 48, 49, 63, 64, 65 };
    static const size_t ads[] = { 0, 1, 15, 16, 17, 1024, 1025 };
    static const size_t messages[] = { 0, 15, 16, 17, 65536, 65537 };
    struct lengths n;
    size_t i, j, k;

    for (i = 0; i < sizeof keys / sizeof keys[0]; i++)
        for (j = 0; j < sizeof ads / sizeof ads[0]; j++)
            for (k = 0; k < sizeof messages / sizeof messages[0]; k++) {
                n.key = keys[i];
                n.ad = ads[j];
                n.message = messages[k];
                eme2_lengths(direction, n);
            }
}

/*
 * Every length up to four blocks, the lengths around block 129 and the
 * longest text of a sheet, then wider and wider steps.
 */
static void eme2_spread(int direction, size_t key_length)
{
    static const size_t chosen[] = { 2047, 2048, 2049, 2063, 2064,
                                     2065, 2080, 2096, 4112, 4113 };
    struct lengths n;
    size_t i, step;

    n.key = key_length;
    for (i = 0; i < sizeof chosen / sizeof chosen[0]; i++) {
        n.ad = 16;
        n.message = chosen[i];
        eme2_lengths(direction, n);
    }
    for (n.message = 16; n.message <= 65536; n.message += step) {
        n.ad = n.message * 7 % 1025;
        eme2_lengths(direction, n);
        step = n.message < 64 ? 1 : n.message / 4 + 1;
    }
}

/* A message enciphered, then deciphered after one byte lent was turned. */
static void eme2_turned(const char *what, size_t at)
{
    struct lengths n = { 64, 33, 100 };

    eme2_fill(5);
    eme2_check(eme2_call(ENCIPHER, n) == LAGUNEDO_DONE, what, ENCIPHER, n);
    whole[at] ^= 0x01;
    eme2_check(eme2_call(DECIPHER, n) == LAGUNEDO_DONE &&
                   !message_kept(n.message),
               what, DECIPHER, n);
}

/* Forgery is not detected: other bytes, and no refusal. */
static void eme2_forged(void)
{
    struct lengths short_ad = { 48, 5, 40 }, padded_ad = { 48, 16, 40 };
    static const uint8_t padding[11] = { 0x80 };

    eme2_turned("Key1 changed", KEY_AT);
    eme2_turned("Key2 changed", KEY_AT + 32);
    eme2_turned("Key3 changed", KEY_AT + 63);
    eme2_turned("associated data changed", AD_AT);
    eme2_turned("short block of associated data changed", AD_AT + 32);
    eme2_turned("first byte of the message changed", MESSAGE_AT);
    eme2_turned("last byte of the message changed", MESSAGE_AT + 99);

    /* Associated data that is padded by the caller is not the same. */
    eme2_fill(6);
    memcpy(whole + AD_AT + 5, padding, sizeof padding);
    eme2_check(eme2_call(ENCIPHER, short_ad) == LAGUNEDO_DONE &&
                   eme2_call(DECIPHER, padded_ad) == LAGUNEDO_DONE &&
                   !message_kept(40),
               "associated data padded", DECIPHER, padded_ad);
}

/* Each of the three lent as it is or as NULL with length 0. */
static void eme2_nulls(int direction)
{
    int lent;

    for (lent = 0; lent < 8; lent++) {
        uint8_t *key = lent & 1 ? whole + KEY_AT : NULL;
        uint8_t *ad = lent & 2 ? whole + AD_AT : NULL;
        uint8_t *message = lent & 4 ? whole + MESSAGE_AT : NULL;
        struct lengths n = { key ? 64 : 0, ad ? 16 : 0, message ? 50 : 0 };
        uint32_t wanted = eme2_wanted(n);
        uint32_t number;

        eme2_fill(7);
        number = eme2_lent(direction, key, n.key, ad, n.ad, message,
                           n.message);
        eme2_check(number == wanted, "NULL, wrong number", direction, n);
        eme2_check(wanted == LAGUNEDO_DONE ? rest_kept(n.message) : all_kept(),
                   "NULL, bytes changed", direction, n);
    }
}

/* Empty associated data is the same by NULL and by any address. */
static void eme2_empty(int direction)
{
    struct lengths n = { 64, 0, 50 };
    uint8_t result[50];
    uint32_t number;

    eme2_fill(8);
    eme2_check(eme2_call(direction, n) == LAGUNEDO_DONE, "by NULL", direction,
               n);
    memcpy(result, whole + MESSAGE_AT, sizeof result);
    memcpy(whole, before, WHOLE);
    number = eme2_lent(direction, whole + KEY_AT, n.key, whole + AD_AT, 0,
                       whole + MESSAGE_AT, n.message);
    eme2_check(number == LAGUNEDO_DONE &&
                   memcmp(whole + MESSAGE_AT, result, sizeof result) == 0,
               "by NULL and by address differ", direction, n);
}

/* The library's own function, past the header's macros. */
static void eme2_by_address(int direction)
{
    uint32_t (*own)(const uint8_t *, size_t, const uint8_t *, size_t,
                    uint8_t *, size_t) =
        direction == ENCIPHER ? lagunedo_eme2_encipher
                              : (lagunedo_eme2_decipher);
    struct lengths n = { 48, 16, 70 };
    uint8_t result[70];

    eme2_fill(9);
    eme2_check(own(whole + KEY_AT, n.key, whole + AD_AT, n.ad,
                   whole + MESSAGE_AT, n.message) == LAGUNEDO_DONE &&
                   rest_kept(n.message),
               "by address", direction, n);
    memcpy(result, whole + MESSAGE_AT, sizeof result);
    memcpy(whole, before, WHOLE);
    eme2_check(eme2_call(direction, n) == LAGUNEDO_DONE &&
                   memcmp(whole + MESSAGE_AT, result, sizeof result) == 0,
               "by address and by name differ", direction, n);
    memcpy(whole, before, WHOLE);
    eme2_check(own(whole + KEY_AT, 47, whole + AD_AT, n.ad,
                   whole + MESSAGE_AT, n.message) == LAGUNEDO_KEY_LENGTH &&
                   all_kept(),
               "by address, not refused", direction, n);
}

void test_eme2(void)
{
    size_t i;
    int direction;

    for (i = 0; i < sizeof eme2_answers / sizeof eme2_answers[0]; i++)
        eme2_known(&eme2_answers[i]);
    for (direction = ENCIPHER; direction < DIRECTIONS; direction++) {
        eme2_edges(direction);
        eme2_spread(direction, 48);
        eme2_spread(direction, 64);
        eme2_nulls(direction);
        eme2_empty(direction);
        eme2_by_address(direction);
    }
    eme2_forged();
}
