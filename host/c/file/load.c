/*
 * Loading a store, whole.
 */

#include <errno.h>
#include <fcntl.h>
#include <unistd.h>

#include "bytes.h"
#include "load.h"

/*
 * A store that is to be changed is opened for writing, though it is replaced
 * and never written: one that was made read-only is to stay as it is.
 */
int lagunedo_file_open(const struct lagunedo_file *file)
{
    int how = file->purpose == LAGUNEDO_FILE_TO_READ ? O_RDONLY : O_RDWR;

    return openat(file->directory, file->name,
                  how | O_NOFOLLOW | O_NONBLOCK | O_CLOEXEC);
}

enum lagunedo_file_answer lagunedo_file_load(struct lagunedo_file *file,
                                             uint8_t *bytes, size_t room,
                                             size_t *length)
{
    int store, why, result;

    if (file->purpose == LAGUNEDO_FILE_TO_MAKE) {
        *length = 0;
        return LAGUNEDO_FILE_DONE;
    }
    store = lagunedo_file_open(file);
    if (store == -1)
        return lagunedo_file_trouble(file, file->path);
    result = lagunedo_file_bytes_read(store, bytes, room, length);
    why = errno;
    close(store);
    errno = why;
    return result == 0 ? LAGUNEDO_FILE_DONE
                       : lagunedo_file_trouble(file, file->path);
}
