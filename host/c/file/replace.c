/*
 * Replacing a store, and keeping the one before: written beside, flushed,
 * renamed. The copy is a file of its own and no link to the store, so that
 * nobody who writes into one of them changes the other.
 */

#include <errno.h>
#include <fcntl.h>
#include <stdio.h>
#include <sys/stat.h>
#include <unistd.h>

#include "bytes.h"
#include "load.h"
#include "stops.h"

/* What a file gets: the bytes, or with a file to copy from, all of that. */
struct contents {
    int from; /* -1: the bytes */
    const uint8_t *bytes;
    size_t length;
};

#define STOP_AT(contents, point) \
    stop_at((contents)->from == -1 ? point : "copy-" point)

static int contents_write(int to, const struct contents *contents)
{
    uint8_t piece[8192];
    size_t got;

    if (contents->from == -1)
        return lagunedo_file_bytes_write(to, contents->bytes,
                                         contents->length);
    do
        if (lagunedo_file_bytes_read(contents->from, piece, sizeof piece,
                                     &got) != 0 ||
            lagunedo_file_bytes_write(to, piece, got) != 0)
            return -1;
    while (got == sizeof piece);
    return 0;
}

/*
 * A file that a run left when it was cut off is removed, and not written
 * again: what is made anew has no other name, no other owner and nobody who
 * still has it open. The lock is held, so no other run is using it.
 */
static int fresh_file(const struct lagunedo_file *file)
{
    if (unlinkat(file->directory, file->fresh_name, 0) != 0 &&
        errno != ENOENT)
        return -1;
    return openat(file->directory, file->fresh_name,
                  O_WRONLY | O_CREAT | O_EXCL | O_CLOEXEC,
                  S_IRUSR | S_IWUSR);
}

static int fill_and_flush(const struct lagunedo_file *file, int fresh,
                          const struct contents *contents)
{
    if (file->found && lagunedo_file_share(file, fresh, 0) != 0)
        return -1;
    if (contents_write(fresh, contents) != 0)
        return -1;
    STOP_AT(contents, "flush");
    return fsync(fresh);
}

/* The whole contents, on disk, beside the store. */
static int write_beside(const struct lagunedo_file *file,
                        const struct contents *contents)
{
    int fresh = fresh_file(file);
    int why;

    if (fresh == -1)
        return -1;
    if (fill_and_flush(file, fresh, contents) == 0)
        return close(fresh);
    why = errno;
    close(fresh);
    errno = why;
    return -1;
}

/* The contents under this name, in the place of what had it, or nothing. */
static enum lagunedo_file_answer put(struct lagunedo_file *file,
                                     const struct contents *contents,
                                     const char *name)
{
    int why, result = write_beside(file, contents);

    if (result == 0) {
        STOP_AT(contents, "rename");
        result = renameat(file->directory, file->fresh_name, file->directory,
                          name);
    }
    if (result == 0) {
        STOP_AT(contents, "renamed");
        return LAGUNEDO_FILE_DONE;
    }
    why = errno;
    unlinkat(file->directory, file->fresh_name, 0);
    errno = why;
    return lagunedo_file_trouble(file, file->fresh_name);
}

/* Some file systems have no flush of a directory and say so by EINVAL. */
static int directory_flush(const struct lagunedo_file *file)
{
    return fsync(file->directory) != 0 && errno != EINVAL ? -1 : 0;
}

enum lagunedo_file_answer lagunedo_file_keep(struct lagunedo_file *file)
{
    struct contents store = { -1, NULL, 0 };
    enum lagunedo_file_answer answer;
    int why;

    if (file->lock == -1)
        return LAGUNEDO_FILE_NOT_LOCKED;
    store.from = lagunedo_file_open(file);
    if (store.from == -1)
        return lagunedo_file_trouble(file, file->path);
    answer = put(file, &store, file->before_name);
    why = errno;
    close(store.from);
    errno = why;
    if (answer != LAGUNEDO_FILE_DONE)
        return answer;
    return directory_flush(file) == 0
               ? LAGUNEDO_FILE_DONE
               : lagunedo_file_trouble(file, file->before_name);
}

enum lagunedo_file_answer lagunedo_file_replace(struct lagunedo_file *file,
                                                const uint8_t *bytes,
                                                size_t length)
{
    const struct contents fresh = { -1, bytes, length };
    enum lagunedo_file_answer answer;

    if (file->lock == -1)
        return LAGUNEDO_FILE_NOT_LOCKED;
    answer = put(file, &fresh, file->name);
    if (answer != LAGUNEDO_FILE_DONE)
        return answer;
    file->purpose = LAGUNEDO_FILE_TO_CHANGE;
    return directory_flush(file) == 0 ? LAGUNEDO_FILE_DONE
                                      : LAGUNEDO_FILE_UNCONFIRMED;
}
