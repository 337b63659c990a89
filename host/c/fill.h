/*
 * Bytes for tests and benchmarks, the same in every run.
 */

#ifndef FILL_H
#define FILL_H

#include <stddef.h>
#include <stdint.h>

/* Bytes without a pattern that a cipher or a stray write would repeat. */
void fill(uint8_t *bytes, size_t length, uint32_t seed);

#endif
