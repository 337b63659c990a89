/*
 * Looks for a substitution table of AES in files of machine code.
 *
 *   tables FILE..   prints which table stands where, and ends with 1 if a
 *                   file has one, or a part of one, and with 0 if none has
 *   tables --try    looks for tables in every form that it has planted in
 *                   noise, and ends with 1 if one is not found
 *
 * The tables are SBOX and INVSBOX of FIPS 197; their multiples in the byte
 * field, of which larger tables for whole columns are made; and the field's
 * inverses. From an entry to the next it may be 1 to 16 bytes onwards or
 * back, with anything between. So an element may have any width up to 16
 * bytes, either end first, or be a column, or stand in an instruction.
 *
 * Four entries in a row may stand in any file by chance. Five such groups of
 * one table, at one distance from entry to entry, do not: eight entries in a
 * row hold as many, and so do five pieces of a table that was scattered.
 */

#include <stdint.h>
#include <stdio.h>
#include <stdlib.h>
#include <string.h>

#include "fill.h"

enum { ENTRIES = 256, GROUP = 4, GROUPS = 5, FARTHEST = 16 };

static uint8_t sbox[ENTRIES], inv_sbox[ENTRIES], inverses[ENTRIES];

/* A table of 256 different bytes, and at which place it has a byte. */
static struct table {
    const char *name;
    const uint8_t *base;
    uint8_t factor, entry[ENTRIES], place[ENTRIES];
} tables[] = { { "SBOX", sbox, 1, { 0 }, { 0 } },
               { "2 SBOX", sbox, 2, { 0 }, { 0 } },
               { "3 SBOX", sbox, 3, { 0 }, { 0 } },
               { "INVSBOX", inv_sbox, 1, { 0 }, { 0 } },
               { "9 INVSBOX", inv_sbox, 9, { 0 }, { 0 } },
               { "11 INVSBOX", inv_sbox, 11, { 0 }, { 0 } },
               { "13 INVSBOX", inv_sbox, 13, { 0 }, { 0 } },
               { "14 INVSBOX", inv_sbox, 14, { 0 }, { 0 } },
               { "the inverses", inverses, 1, { 0 }, { 0 } } };

enum { TABLES = sizeof tables / sizeof tables[0] };

/* FIPS 197, 4.2: the product, modulo x^8 + x^4 + x^3 + x + 1. */
static uint8_t times(unsigned a, unsigned b)
{
    unsigned product = 0;

    for (; b != 0; b >>= 1) {
        if (b & 1)
            product ^= a;
        a = a << 1 ^ (a & 0x80 ? 0x11b : 0);
    }
    return (uint8_t)product;
}

/* 5.1.1: the affine step, bit i by bits i, i + 4, .. i + 7 modulo 8. */
static uint8_t affine(unsigned b)
{
    unsigned twice = b << 8 | b;

    return (uint8_t)(b ^ twice >> 4 ^ twice >> 5 ^ twice >> 6 ^ twice >> 7
                     ^ 0x63);
}

static void make_tables(void)
{
    unsigned a, b, i;

    for (a = 0; a < ENTRIES; a++)
        for (b = 0; b < ENTRIES; b++)
            if (times(a, b) == 1)
                inverses[a] = (uint8_t)b;
    for (a = 0; a < ENTRIES; a++) {
        sbox[a] = affine(inverses[a]);
        inv_sbox[sbox[a]] = (uint8_t)a;
    }
    for (i = 0; i < TABLES; i++)
        for (a = 0; a < ENTRIES; a++) {
            tables[i].entry[a] = times(tables[i].base[a], tables[i].factor);
            tables[i].place[tables[i].entry[a]] = (uint8_t)a;
        }
}

/* Whether entries in a row, from x on, stand at `at`, so far from each other. */
static int group_at(const struct table *table, unsigned x,
                    const uint8_t *bytes, size_t at, size_t step)
{
    size_t i;

    for (i = 1; i < GROUP; i++)
        if (bytes[at + i * step] != table->entry[x + i])
            return 0;
    return 1;
}

/*
 * How many different groups of a table there are, each entry `step` after the
 * one before it, or with `back` before it. The first of them is at *first.
 */
static unsigned groups(const struct table *table, const uint8_t *bytes,
                       size_t length, size_t step, int back, size_t *first)
{
    uint8_t seen[ENTRIES] = { 0 };
    size_t span = (GROUP - 1) * step, at;
    unsigned count = 0;

    for (at = 0; at + span < length; at++) {
        size_t from = back ? at + span : at;
        unsigned x = table->place[bytes[from]];

        if (x + GROUP > ENTRIES || seen[x]
            || !group_at(table, x, bytes, from, back ? 0 - step : step))
            continue;
        seen[x] = 1;
        if (count++ == 0)
            *first = from;
    }
    return count;
}

/* How many forms of tables the bytes hold. Prints a line each under a name. */
static unsigned found(const uint8_t *bytes, size_t length, const char *name)
{
    unsigned count = 0, i;
    size_t step, first;
    int back;

    for (i = 0; i < TABLES; i++)
        for (step = 1; step <= FARTHEST; step++)
            for (back = 0; back < 2; back++) {
                if (groups(&tables[i], bytes, length, step, back, &first)
                    < GROUPS)
                    continue;
                count++;
                if (name != NULL)
                    printf("%s has %s at byte %lu, from entry to entry "
                           "%lu %s\n", name, tables[i].name,
                           (unsigned long)first, (unsigned long)step,
                           back ? "back" : "onwards");
            }
    return count;
}

/* The bytes of a file, which has to be one; NULL if it could not be read. */
static uint8_t *read_file(const char *name, size_t *length)
{
    FILE *file = fopen(name, "rb");
    uint8_t *bytes = NULL;
    size_t room = 0;

    *length = 0;
    if (file == NULL)
        return NULL;
    while (!feof(file) && !ferror(file)) {
        room += 1 << 16;
        bytes = realloc(bytes, room);
        if (bytes == NULL)
            break;
        *length += fread(bytes + *length, 1, room - *length, file);
    }
    if (ferror(file) || *length == 0) {
        free(bytes);
        bytes = NULL;
    }
    fclose(file);
    return bytes;
}

static int look_at(const char *name)
{
    size_t length;
    uint8_t *bytes = read_file(name, &length);
    unsigned count;

    if (bytes == NULL) {
        fprintf(stderr, "tables: %s could not be read, or is empty\n", name);
        exit(2);
    }
    count = found(bytes, length, name);
    free(bytes);
    return count != 0;
}

/* The least part of a table that is found for certain. */
enum { LEAST = GROUP + GROUPS - 1 };

enum { NOISE = 1 << 13, PLANTED_AT = 1999 };

static uint8_t noise[NOISE];

/* Whether there is a table in the noise has to be as told. */
static void must_find(int wanted, const char *what,
                      const struct table *table, size_t step, int back)
{
    if ((found(noise, NOISE, NULL) != 0) == wanted)
        return;
    fprintf(stderr, "tables: FAILED: %s: %s, %lu bytes %s\n", what,
            table->name, (unsigned long)step, back ? "back" : "onwards");
    exit(1);
}

/* Entries of a table from x on, at any distance, in noise. */
static void plant(const struct table *table, unsigned x, unsigned count,
                  size_t step, int back)
{
    unsigned i;

    fill(noise, NOISE, 1);
    for (i = 0; i < count; i++)
        noise[PLANTED_AT + step * (back ? count - 1 - i : i)] =
            table->entry[x + i];
}

/* As many pieces of four as it takes, in noise. */
static void scatter(const struct table *table)
{
    unsigned i;

    fill(noise, NOISE, 1);
    for (i = 0; i < GROUPS; i++)
        memcpy(noise + PLANTED_AT + 900 * i, table->entry + 36 * i, GROUP);
}

/* The table with every two entries exchanged, which is no table, in noise. */
static void plant_exchanged(const struct table *table)
{
    unsigned i;

    fill(noise, NOISE, 1);
    for (i = 0; i < ENTRIES; i++)
        noise[PLANTED_AT + i] = table->entry[i ^ 1];
}

/* Gives back how many forms were planted and found. */
static unsigned tried(void)
{
    unsigned i, count = 0;
    size_t step;
    int back;

    for (i = 0; i < TABLES; i++) {
        const struct table *table = &tables[i];

        for (step = 1; step <= FARTHEST; step++)
            for (back = 0; back < 2; back++, count++) {
                plant(table, 0, ENTRIES, step, back);
                must_find(1, "a whole table", table, step, back);
                plant(table, count % (ENTRIES - LEAST + 1), LEAST, step, back);
                must_find(1, "a part of one", table, step, back);
            }
        scatter(table);
        must_find(1, "a table scattered", table, 1, 0);
        plant_exchanged(table);
        must_find(0, "what is no table", table, 1, 0);
    }
    return count;
}

int main(int count, char **words)
{
    int i, has = 0;

    make_tables();
    if (count == 2 && strcmp(words[1], "--try") == 0) {
        printf("tables: %u forms of tables, whole and in part, were found in "
               "noise\n", tried());
        return 0;
    }
    if (count < 2) {
        fprintf(stderr, "usage: tables --try | FILE..\n");
        return 2;
    }
    for (i = 1; i < count; i++)
        has |= look_at(words[i]);
    return has;
}
