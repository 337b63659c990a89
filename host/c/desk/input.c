/*
 * Reading whole inputs.
 */

#include <fcntl.h>
#include <unistd.h>

#include "../file/bytes.h"
#include "input.h"
#include "say.h"
#include "status.h"

int file_read(const char *file, uint8_t *bytes, size_t room, size_t *length)
{
    int input = open(file, O_RDONLY | O_CLOEXEC);
    int status = DESK_DONE;

    if (input == -1)
        return file_trouble(file);
    if (lagunedo_file_bytes_read(input, bytes, room, length) != 0)
        status = file_trouble(file);
    close(input);
    return status;
}

int key_read(const char *file, struct key *key)
{
    return file_read(file, key->bytes, KEY_ROOM, &key->length);
}

/* Whoever started it by mistake sees why nothing happens. */
static int input_read(const char *what, uint8_t *bytes, size_t room,
                      size_t *length)
{
    if (isatty(STDIN_FILENO))
        complain("reads the %s until end of input: Ctrl-D on a line of its "
                 "own", what);
    if (lagunedo_file_bytes_read(STDIN_FILENO, bytes, room, length) != 0)
        return file_trouble("standard input");
    return DESK_DONE;
}

int text_read(struct text *text)
{
    return input_read("text", text->bytes, TEXT_ROOM, &text->length);
}

int unit_read(struct unit *unit)
{
    return input_read("unit", unit->bytes, UNIT_ROOM, &unit->length);
}
