/*
 * Complaints, each with the program's name before it.
 */

#include <errno.h>
#include <stdarg.h>
#include <stdio.h>
#include <string.h>

#include "say.h"
#include "status.h"

static const char *name = "desk";

void say_as(const char *called)
{
    const char *slash = strrchr(called, '/');

    name = slash == NULL ? called : slash + 1;
}

const char *own_name(void)
{
    return name;
}

void complain(const char *format, ...)
{
    va_list rest;

    fprintf(stderr, "%s: ", name);
    va_start(rest, format);
    vfprintf(stderr, format, rest);
    va_end(rest);
    fputc('\n', stderr);
}

int refused(uint32_t number)
{
    complain("refused with %u: %s", (unsigned)number,
             status_meaning((int)number));
    return (int)number;
}

int file_trouble(const char *file)
{
    complain("%s: %s", file, strerror(errno));
    return DESK_FILE;
}
