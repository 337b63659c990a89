/*
 * One change at a time on a store.
 *
 * The lock belongs to the open file and not to the process (F_OFD_SETLK), so
 * that two threads of a server exclude each other too, and no other file that
 * the server closes gives it back. It stands against the older kind,
 * F_SETLK, as well. The lock's file is never removed: two runs could then
 * hold locks on two files of that name.
 */

#define _GNU_SOURCE /* F_OFD_SETLK */

#include <errno.h>
#include <fcntl.h>
#include <string.h>
#include <sys/stat.h>
#include <unistd.h>

#include "place.h"

static int whole_file(int file, int command)
{
    struct flock whole;
    int result;

    memset(&whole, 0, sizeof whole);
    whole.l_type = F_WRLCK;
    whole.l_whence = SEEK_SET;
    do
        result = fcntl(file, command, &whole);
    while (result == -1 && errno == EINTR);
    return result;
}

static enum lagunedo_file_answer take(struct lagunedo_file *file, int wait)
{
    if (whole_file(file->lock, wait ? F_OFD_SETLKW : F_OFD_SETLK) == 0)
        return LAGUNEDO_FILE_DONE;
    return !wait && (errno == EACCES || errno == EAGAIN)
               ? LAGUNEDO_FILE_IN_USE
               : lagunedo_file_trouble(file, file->lock_name);
}

enum lagunedo_file_answer lagunedo_file_lock(struct lagunedo_file *file,
                                             int wait)
{
    enum lagunedo_file_answer answer;

    if (file->purpose == LAGUNEDO_FILE_TO_READ)
        return LAGUNEDO_FILE_NOT_LOCKED;
    if (file->lock != -1)
        return LAGUNEDO_FILE_DONE;
    file->lock = openat(file->directory, file->lock_name,
                        O_RDWR | O_CREAT | O_NOFOLLOW | O_CLOEXEC,
                        S_IRUSR | S_IWUSR);
    if (file->lock == -1)
        return lagunedo_file_trouble(file, file->lock_name);
    /* Who may change the store may lock it, whoever was first to do so. Who
     * does not own the lock's file leaves it as it is. */
    if (file->found)
        (void)lagunedo_file_share(file, file->lock, S_IRUSR | S_IWUSR);
    answer = take(file, wait);
    if (answer == LAGUNEDO_FILE_DONE)
        answer = lagunedo_file_look(file);
    if (answer != LAGUNEDO_FILE_DONE)
        lagunedo_file_unlock(file);
    return answer;
}

void lagunedo_file_unlock(struct lagunedo_file *file)
{
    int why = errno;

    if (file->lock != -1)
        close(file->lock);
    file->lock = -1;
    errno = why;
}
