/*
 * What the files of the test share: counting checks, and making bytes.
 */

#ifndef CHECK_H
#define CHECK_H

#include <stddef.h>
#include <stdint.h>

#include "fill.h"

enum { ENCIPHER, DECIPHER, DIRECTIONS };

/*
 * What is written stands inside a larger buffer, between bytes that must
 * stay. Their number is odd, since no alignment is asked for.
 */
enum { GUARD = 25 };

extern const char *const direction_name[DIRECTIONS];

int opposite(int direction);

/* Counts one check, and gives back whether it holds. */
int counted(int holds);

/* The bytes that a string of hexadecimal digits names, and their number. */
size_t from_hex(const char *hex, uint8_t *bytes);

/* FNV-1a of 32 bits. */
uint32_t digest(const uint8_t *bytes, size_t length);

/* The checks, a file each. */
void test_aes(void);
void test_eme2(void);
void test_store(void);
void test_revisions(void);
void test_refusals(void);
void test_job(void);
void test_xts(void);
void test_takeover(void);
void test_alone(void);
void test_stack(void);
void test_numbers(void);

#endif
