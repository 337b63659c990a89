/*
 * OpenSSL through EVP, the interface that finds AES-NI: ECB without padding.
 * Its contexts are made once, so that setting up a key is no more than that.
 */

#include <openssl/crypto.h>
#include <openssl/evp.h>

#include "bench.h"

enum { SIZES = 2, WAYS = 2 };

static EVP_CIPHER_CTX *contexts[SIZES][WAYS];

/* The contexts of the key set up last. */
static EVP_CIPHER_CTX **current;

static EVP_CIPHER_CTX *made(const char *name, int way)
{
    EVP_CIPHER *cipher = EVP_CIPHER_fetch(NULL, name, NULL);
    EVP_CIPHER_CTX *context = EVP_CIPHER_CTX_new();

    must(cipher != NULL && context != NULL &&
             EVP_CipherInit_ex2(context, cipher, NULL, NULL, way == 0,
                                NULL) &&
             EVP_CIPHER_CTX_set_padding(context, 0),
         "OpenSSL makes no context");
    EVP_CIPHER_free(cipher);
    return context;
}

static void set_up(const uint8_t *key, size_t key_length, unsigned ways)
{
    static const char *const names[SIZES] = { "AES-128-ECB", "AES-256-ECB" };
    size_t size = key_length == 32;
    int way;

    current = contexts[size];
    for (way = 0; way < WAYS; way++) {
        if ((ways & (way == 0 ? FOR_ENC : FOR_DEC)) == 0)
            continue;
        if (current[way] == NULL)
            current[way] = made(names[size], way);
        must(EVP_CipherInit_ex2(current[way], NULL, key, NULL, -1, NULL),
             "OpenSSL sets up no key");
    }
}

static void blocks(bool back, uint8_t *bytes, size_t length)
{
    int written = 0;

    must(EVP_CipherUpdate(current[back], bytes, &written, bytes,
                          (int)length) &&
             (size_t)written == length,
         "OpenSSL does not go over the blocks");
}

static const char *settings(void)
{
    return OPENSSL_info(OPENSSL_INFO_CPU_SETTINGS);
}

const struct peer openssl_peer = { "openssl", set_up, blocks, settings };
