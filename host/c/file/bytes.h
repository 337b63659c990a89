/*
 * Reading and writing whole, in however many pieces the system takes. Not part
 * of lagunedo_file.h: the desk's programs use it for keys and texts.
 */

#ifndef FILE_BYTES_H
#define FILE_BYTES_H

#include <stddef.h>
#include <stdint.h>

/*
 * Reads until the input ends or the room is full. Gives 0 and the number of
 * bytes, or -1 with errno set.
 */
int lagunedo_file_bytes_read(int input, uint8_t *bytes, size_t room,
                             size_t *length);

/* Writes them all; 0, or -1 with errno set. */
int lagunedo_file_bytes_write(int output, const uint8_t *bytes,
                              size_t length);

#endif
