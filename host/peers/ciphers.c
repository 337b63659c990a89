#include "bench.h"
#include "block.h"
#include "fill.h"

/* A page, the longest sheet, and the limits of a message. */
enum { PAGE = 4096, SHEET = 2096, LEAST = 16, MOST = 65536 };

/* EME2's key: Key1 of 16 or 32 bytes, then Key2 and Key3. */
static uint8_t key[32 + 2 * BLOCK], lead[BLOCK], message[MOST];

/* What a timed call works with; it goes over the message's front again. */
struct call {
    const struct peer *peer;
    bool each, back;
    size_t key1, length;
};

static void peer_aes(void *with)
{
    const struct call *c = with;

    if (c->each)
        aes_set_up(c->peer, key, c->key1, c->back);
    c->peer->blocks(c->back, message, c->length);
}

static void peer_eme2(void *with)
{
    const struct call *c = with;

    if (c->each)
        eme2_set_up(c->peer, key, c->key1, c->back);
    eme2(c->peer, key, c->key1, c->back, lead, sizeof lead, message,
         c->length);
}

static void library_block(void *with)
{
    const struct call *c = with;

    our_block(key, c->key1, c->back, message);
}

static void library_blocks(void *with)
{
    const struct call *c = with;

    our_blocks(key, c->key1, c->back, message, c->length);
}

static void library_eme2(void *with)
{
    const struct call *c = with;

    our_eme2(key, c->key1 + 2 * BLOCK, c->back, lead, sizeof lead, message,
             c->length);
}

/* Both key sizes, both ways. A peer's key is there before the first call. */
static void time_rows(struct row row, struct call call,
                      void (*timed)(void *))
{
    int back;

    row.keying = call.each ? "each" : "once";
    row.size = call.length;
    for (call.key1 = 16; call.key1 <= 32; call.key1 += 16) {
        for (back = 0; back < 2; back++) {
            call.back = back;
            row.bits = 8 * (unsigned)call.key1;
            row.call = back ? "decipher" : "encipher";
            if (call.peer != NULL)
                call.peer->set_up(key, call.key1, FOR_ENC | FOR_DEC);
            time_row(&row, timed, &call);
        }
    }
}

static void make_input(void)
{
    fill(key, sizeof key, 1);
    fill(lead, sizeof lead, 2);
    fill(message, sizeof message, 3);
}

void time_peer(const struct peer *peer, const char *who)
{
    struct row aes = { .who = who, .work = "aes" };
    struct row wide = { .who = who, .work = "eme2" };
    struct call call = { .peer = peer };
    int each;

    make_input();
    for (each = 0; each < 2; each++) {
        call.each = each;
        call.length = BLOCK;
        time_rows(aes, call, peer_aes);
        call.length = PAGE;
        time_rows(aes, call, peer_aes);
        call.length = SHEET;
        time_rows(wide, call, peer_eme2);
    }
}

void time_ours(const char *who)
{
    struct row aes = { .who = who, .work = "aes" };
    struct row slice = { .who = who, .work = "aes slice" };
    struct row wide = { .who = who, .work = "eme2" };
    struct call call = { .each = true, .length = BLOCK };

    make_input();
    time_rows(aes, call, library_block);
    time_rows(slice, call, library_blocks);
    call.length = PAGE;
    time_rows(aes, call, library_blocks);
    call.length = SHEET;
    time_rows(slice, call, library_blocks);
    time_rows(wide, call, library_eme2);
    for (call.length = LEAST; call.length <= MOST; call.length *= 2)
        time_rows(wide, call, library_eme2);
}
