/*
 * A sheet's text on standard output.
 */

#ifndef DESK_SHOW_H
#define DESK_SHOW_H

#include <stddef.h>
#include <stdint.h>

/*
 * Byte for byte; but if standard output is a terminal, and not raw, then what
 * cannot be shown there is escaped.
 */
void text_show(const uint8_t *text, size_t length, int raw);

#endif
