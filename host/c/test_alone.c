/*
 * What of a unit is read. The longest unit stands on 16 pages of its own, all
 * of which may be forbidden: a call that reads there ends this program.
 *
 * A block is read with every page but its own forbidden. A conversion that is
 * refused for a length reads nothing of the unit, and so deciphers none.
 */

#define _DEFAULT_SOURCE

#include <stdio.h>
#include <string.h>
#include <sys/mman.h>

#include "check.h"
#include "lagunedo.h"

enum { PAGE = 4096, UNIT = LAGUNEDO_UNIT_MOST, PAGES = UNIT / PAGE };

static uint8_t key[64], deciphered[UNIT], store[2 * LAGUNEDO_RECORD_SIZE];

static void alone_check(int holds, const char *what, uint64_t k)
{
    if (!counted(holds))
        fprintf(stderr, "c: %s: block %llu of forbidden pages\n", what,
                (unsigned long long)k);
}

/* Only this page may be read; with PAGES none. */
static int only_page(uint8_t *unit, size_t page)
{
    return mprotect(unit, UNIT, PROT_NONE) == 0 &&
           (page == PAGES ||
            mprotect(unit + page * PAGE, PAGE, PROT_READ) == 0);
}

static void block_of_page(uint8_t *unit, size_t page, size_t within)
{
    uint64_t k = (page * PAGE + within) / 16;
    uint8_t block[LAGUNEDO_BLOCK_SIZE];

    alone_check(lagunedo_xts_block(key, sizeof key, 305, unit, UNIT, k,
                                   block) == LAGUNEDO_DONE,
                "refused", k);
    alone_check(memcmp(block, deciphered + 16 * k, sizeof block) == 0,
                "not the block of the whole unit", k);
}

/* Lengths that are refused, with no page to read. */
static void refused_unread(uint8_t *unit)
{
    uint8_t block[LAGUNEDO_BLOCK_SIZE];
    uint32_t revision;

    alone_check(only_page(unit, PAGES), "no pages", 0);
    alone_check(lagunedo_add_xts(key, 64, 305, unit, UNIT, key, 48, key, 48,
                                 store, sizeof store, 305, &revision) ==
                    LAGUNEDO_TEXT_LENGTH,
                "a conversion of the longest unit", 0);
    alone_check(lagunedo_add_xts(key, 64, 305, unit, 2097, key, 48, key, 48,
                                 store, sizeof store, 305, &revision) ==
                    LAGUNEDO_TEXT_LENGTH,
                "a conversion of a byte too many", 0);
    alone_check(lagunedo_add_xts(key, 48, 305, unit, 100, key, 48, key, 48,
                                 store, sizeof store, 305, &revision) ==
                    LAGUNEDO_XTS_KEY_LENGTH,
                "a conversion by a key of 48 bytes", 0);
    alone_check(lagunedo_xts_block(key, 64, 305, unit, UNIT, UNIT / 16,
                                   block) == LAGUNEDO_BLOCK_NOT_ALONE,
                "past the end", UNIT / 16);
}

void test_alone(void)
{
    uint8_t *unit = mmap(NULL, UNIT, PROT_READ | PROT_WRITE,
                         MAP_PRIVATE | MAP_ANONYMOUS, -1, 0);
    size_t page;

    alone_check(unit != MAP_FAILED, "no memory", 0);
    if (unit == MAP_FAILED)
        return;
    fill(key, sizeof key, 71);
    fill(unit, UNIT, 72);
    memcpy(deciphered, unit, UNIT);
    alone_check(lagunedo_xts_decipher(key, sizeof key, 305, deciphered,
                                      UNIT) == LAGUNEDO_DONE,
                "not deciphered", 0);
    for (page = 0; page < PAGES; page++) {
        alone_check(only_page(unit, page), "no page", 0);
        block_of_page(unit, page, 0);
        block_of_page(unit, page, 2000);
        block_of_page(unit, page, PAGE - 16);
    }
    refused_unread(unit);
    munmap(unit, UNIT);
}
