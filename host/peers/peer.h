/*
 * A peer: another AES, with its key set up as it does that itself. The benchmark times it by itself, and EME2 over it.
 */

#ifndef PEER_H
#define PEER_H

#include <stdbool.h>
#include <stddef.h>
#include <stdint.h>

/*
 * The ways that a key is set up for, as bits. Most peers have a schedule for
 * each way, and deciphering EME2 needs both (01: Dec in all message steps,
 * Enc on the associated data).
 */
enum { FOR_ENC = 1, FOR_DEC = 2 };

struct peer {
    /* What the command line calls it. */
    const char *word;

    /* Sets up a key of 16 or 32 bytes, in place of the one before. */
    void (*set_up)(const uint8_t *key, size_t key_length, unsigned ways);

    /* AES over whole blocks in place, as many at once as the peer can. */
    void (*blocks)(bool back, uint8_t *bytes, size_t length);

    /* What it says it found the processor to offer; NULL if it is mute. */
    const char *(*settings)(void);
};

extern const struct peer openssl_peer, nettle_peer, bearssl_peer, plain_peer;

/* For AES by itself, which needs one way. */
static inline void aes_set_up(const struct peer *aes, const uint8_t *key,
                              size_t key_length, bool back)
{
    aes->set_up(key, key_length, back ? FOR_DEC : FOR_ENC);
}

#endif
