/*
 * What desk says on standard error. Each line begins with the name by which
 * the program was called.
 */

#ifndef DESK_SAY_H
#define DESK_SAY_H

#include <stdint.h>

/* Keeps the last part of the path by which the program was called. */
void say_as(const char *called);

const char *own_name(void);

/* One line, given as printf takes it, without the newline. */
void complain(const char *format, ...);

/* A refusal of the library, with its meaning; gives the status to end with. */
int refused(uint32_t number);

/* What errno says of the file; gives the status to end with. */
int file_trouble(const char *file);

#endif
