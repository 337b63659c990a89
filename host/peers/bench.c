/*
 * The benchmark beside peers, one contestant a run:
 *
 *   bench PEER agree NAME       compares its bytes with ours
 *   bench PEER times NAME       prints its rows under that name
 *   bench lagunedo times NAME   prints ours
 *   bench lagunedo eme          prints what EME is to give
 *
 * host/peers/run puts the runs together.
 */

#include <stdio.h>
#include <string.h>

#include "bench.h"

enum { PEERS = 4 };

static const struct peer *const peers[PEERS] = { &openssl_peer, &nettle_peer,
                                                 &bearssl_peer, &plain_peer };

static const struct peer *peer_of(const char *word)
{
    size_t i;

    for (i = 0; i < PEERS; i++)
        if (strcmp(peers[i]->word, word) == 0)
            return peers[i];
    return NULL;
}

/* Whether there is such a contestant that does such a thing. */
static int done(const char *word, const char *what, const char *name)
{
    const struct peer *peer = peer_of(word);
    int ours = strcmp(word, "lagunedo") == 0;

    if (peer != NULL && strcmp(what, "agree") == 0) {
        agree(peer, name);
    } else if (peer != NULL && strcmp(what, "times") == 0) {
        time_peer(peer, name);
    } else if (ours && strcmp(what, "times") == 0) {
        time_ours(name);
        time_store(name);
    } else if (ours && strcmp(what, "eme") == 0) {
        print_eme();
    } else {
        return 0;
    }
    return 1;
}

int main(int count, char **words)
{
    if (count < 3 || !done(words[1], words[2], count > 3 ? words[3] : "")) {
        fprintf(stderr, "usage: bench CONTESTANT agree|times|eme [NAME]\n");
        return 2;
    }
    return 0;
}
