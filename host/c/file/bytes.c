/*
 * read and write, again and again. A signal that comes between is no trouble.
 */

#include <errno.h>
#include <unistd.h>

#include "bytes.h"

int lagunedo_file_bytes_read(int input, uint8_t *bytes, size_t room,
                             size_t *length)
{
    size_t have = 0;
    ssize_t got;

    while (have < room) {
        got = read(input, bytes + have, room - have);
        if (got == 0)
            break;
        if (got > 0)
            have += (size_t)got;
        else if (errno != EINTR)
            return -1;
    }
    *length = have;
    return 0;
}

int lagunedo_file_bytes_write(int output, const uint8_t *bytes,
                              size_t length)
{
    ssize_t put;

    while (length > 0) {
        put = write(output, bytes, length);
        if (put >= 0) {
            bytes += put;
            length -= (size_t)put;
        } else if (errno != EINTR) {
            return -1;
        }
    }
    return 0;
}
