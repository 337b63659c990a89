/*
 * What the files of the benchmark offer each other, beside peer.h.
 */

#ifndef BENCH_H
#define BENCH_H

#include "peer.h"

/* timed.c: the row that a time is printed in, a line with tabs between. */
struct row {
    const char *who;
    const char *work;   /* what is timed: a cipher or a store */
    const char *call;   /* what is called on it */
    const char *keying; /* "each" call sets up its key, or it is done "once" */
    unsigned bits;      /* of the AES key */
    size_t size;        /* in bytes, or in slots */
};

void time_row(const struct row *row, void (*call)(void *), void *with);

/* Ends the program with status 1 if it does not hold: no work, no time. */
void must(int holds, const char *what);

/*
 * eme2.c: EME2 over a peer's AES, under a key of Key1, of key1 bytes, then
 * Key2 and Key3 (01). Key1 is set up in the peer first, for Dec too if back
 * is true. The lengths are those that lagunedo.h takes.
 */
void eme2_set_up(const struct peer *aes, const uint8_t *key, size_t key1,
                 bool back);
void eme2(const struct peer *aes, const uint8_t *key, size_t key1, bool back,
          const uint8_t *ad, size_t ad_length, uint8_t *message,
          size_t length);

/*
 * ours.c: the library's calls as the peers have theirs. One block by the call
 * for C; whole blocks by the slice call of libprobe.a; EME as rfjakob/eme has
 * it, up to 2,048 bytes: the wide block with L twice the encipherment of the
 * zero block, and the tweak for T_star. A refusal ends the program.
 */
void our_block(const uint8_t *key, size_t key_length, bool back,
               uint8_t *block);
void our_blocks(const uint8_t *key, size_t key_length, bool back,
                uint8_t *bytes, size_t length);
void our_eme2(const uint8_t *key, size_t key_length, bool back,
              const uint8_t *ad, size_t ad_length, uint8_t *message,
              size_t length);
void our_eme(const uint8_t *key, size_t key_length, bool back,
             const uint8_t *tweak, uint8_t *message, size_t length);

/*
 * agree.c: compares a peer's AES, and EME2 over it, with ours on fixed inputs;
 * and prints what our EME gives, for a peer that is no C: a line for each
 * input with the direction, the key, the tweak, the message before and after.
 */
void agree(const struct peer *peer, const char *who);
void print_eme(void);

/* ciphers.c and store.c: both key sizes, both ways; the store's calls. */
void time_peer(const struct peer *peer, const char *who);
void time_ours(const char *who);
void time_store(const char *who);

#endif
