/*
 * How much stack the calls use. Each runs on a stack of its own, filled with
 * one byte before: what it has changed of it, it has used, and that is at most
 * what the header says. The swap to that stack and back is not counted.
 */

#define _XOPEN_SOURCE 700

#include <stdio.h>
#include <string.h>
#include <ucontext.h>

#include "check.h"
#include "lagunedo.h"
#include "record.h"

enum { STACK = 1 << 18, UNUSED = 0xa5 };
enum { STORE = LAGUNEDO_SLOT_LIMIT * LAGUNEDO_RECORD_SIZE };

static uint8_t stack[STACK], sheets[STORE], text[LAGUNEDO_TEXT_MOST];
static uint8_t message[LAGUNEDO_MESSAGE_MOST], keys[2][64], lead[16];
static uint8_t block[LAGUNEDO_BLOCK_SIZE];
static uint32_t number, values[6];
static uint64_t place;
static ucontext_t here, there;

static size_t used_by(void (*call)(void))
{
    size_t i;

    memset(stack, UNUSED, sizeof stack);
    getcontext(&there);
    there.uc_stack.ss_sp = stack;
    there.uc_stack.ss_size = sizeof stack;
    there.uc_link = &here;
    makecontext(&there, call, 0);
    swapcontext(&here, &there);
    for (i = 0; i < sizeof stack && stack[i] == UNUSED; i++)
        continue;
    return sizeof stack - i;
}

static void idle(void) { number = 0; }

static void aes_encipher(void)
{
    number = lagunedo_aes_encipher(keys[1], 32, message, 16);
}

static void aes_decipher(void)
{
    number = lagunedo_aes_decipher(keys[1], 32, message, 16);
}

static void encipher(void)
{
    number = lagunedo_eme2_encipher(keys[1], 64, lead, 16, message,
                                    sizeof message);
}

static void decipher(void)
{
    number = lagunedo_eme2_decipher(keys[1], 64, lead, 16, message,
                                    sizeof message);
}

static void add(void)
{
    number = lagunedo_add(keys[0], 48, keys[1], 64, sheets, sizeof sheets, 7,
                          text, sizeof text, &values[0]);
}

static void read(void)
{
    number = lagunedo_read(keys[0], 48, keys[1], 64, sheets, sizeof sheets, 7,
                           text, sizeof text, &values[0], &values[1]);
}

static void revise(void)
{
    number = lagunedo_revise(keys[0], 48, keys[1], 64, sheets, sizeof sheets,
                             7, 1, text, sizeof text, &values[0]);
}

static void check(void)
{
    number = lagunedo_check(sheets, sizeof sheets, &values[0], &values[1],
                            &values[2], &values[3], &values[4], &values[5]);
}

static void step(void)
{
    place = 0;
    number = lagunedo_step(keys[0], 48, keys[1], 64, sheets, sizeof sheets,
                           &place, &values[0]);
}

static void job_step(void)
{
    struct lagunedo_job job = { 0 };

    number = lagunedo_job_step(&job, keys[0], 48, keys[1], 64, sheets,
                               sizeof sheets, &values[0]);
}

static void xts_encipher(void)
{
    number = lagunedo_xts_encipher(keys[1], 64, 305, message,
                                   sizeof message - 1);
}

static void xts_decipher(void)
{
    number = lagunedo_xts_decipher(keys[1], 64, 305, message,
                                   sizeof message - 1);
}

/* The last block, for which k is halved the most often. */
static void xts_block(void)
{
    number = lagunedo_xts_block(keys[1], 64, 305, message, sizeof message,
                                sizeof message / 16 - 1, block);
}

static void add_xts(void)
{
    number = lagunedo_add_xts(keys[1], 64, 305, message, sizeof text, keys[0],
                              48, keys[1], 64, sheets, sizeof sheets, 8,
                              &values[0]);
}

static void remove_sheet(void)
{
    number = lagunedo_remove(sheets, sizeof sheets, 7);
}

static void mark_old_key(void)
{
    struct lead lead_now = lead_read(sheets);

    lead_now.mark = LAGUNEDO_MARK_OLD_KEY;
    lead_write(sheets, lead_now);
}

/* Steps that convert: the sheet in slot 0 is marked old key first. */
static void convert(void)
{
    mark_old_key();
    step();
}

static void job_convert(void)
{
    mark_old_key();
    job_step();
}

static const struct {
    const char *name;
    void (*call)(void);
} calls[] = {
    { "aes encipher", aes_encipher }, { "aes decipher", aes_decipher },
    { "encipher", encipher }, { "decipher", decipher }, { "add", add },
    { "read", read },         { "revise", revise },     { "check", check },
    { "step", step },         { "converting step", convert },
    { "job step", job_step }, { "converting job step", job_convert },
    { "xts encipher", xts_encipher }, { "xts decipher", xts_decipher },
    { "xts block", xts_block }, { "add xts", add_xts },
    { "remove", remove_sheet }
};

void test_stack(void)
{
    size_t base = used_by(idle), most = 0, i;

    fill(keys[0], sizeof keys[0], 1);
    fill(keys[1], sizeof keys[1], 2);
    for (i = 0; i < sizeof calls / sizeof calls[0]; i++) {
        size_t used = used_by(calls[i].call) - base;

        if (!counted(number == LAGUNEDO_DONE))
            fprintf(stderr, "stack: %s answers %u\n", calls[i].name,
                    (unsigned)number);
        if (!counted(used <= LAGUNEDO_STACK_MOST))
            fprintf(stderr, "stack: %s uses %lu bytes\n", calls[i].name,
                    (unsigned long)used);
        most = used > most ? used : most;
    }
    printf("c: a call uses at most %lu bytes of stack\n",
           (unsigned long)most);
}
