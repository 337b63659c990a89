/*
 * Finding the place of a store.
 *
 * The directory is opened once and every name is looked up in it, so that all
 * of a change happens in one directory, even if that is renamed meanwhile. It
 * has to be open anyway: a rename is only certain to outlast a loss of power
 * once the directory was flushed.
 */

#include <errno.h>
#include <fcntl.h>
#include <stdio.h>
#include <stdlib.h>
#include <string.h>
#include <sys/stat.h>
#include <unistd.h>

#include "place.h"

/* Odd enough that no other file is likely to be named so. */
static const char lock_ending[] = ".desk-lock";
static const char fresh_ending[] = ".desk-new";
static const char before_ending[] = ".desk-before"; /* the longest */

enum { NAME_MOST = LAGUNEDO_FILE_NAME_ROOM - sizeof before_ending };

enum lagunedo_file_answer lagunedo_file_trouble(struct lagunedo_file *file,
                                                const char *about)
{
    file->about = about;
    return LAGUNEDO_FILE_TROUBLE;
}

static int ends_in(const char *name, const char *ending)
{
    size_t length = strlen(name), part = strlen(ending);

    return length >= part && strcmp(name + length - part, ending) == 0;
}

/* A copy may be looked at; as a store of its own the next would replace it. */
static int reserved(const struct lagunedo_file *file, const char *name)
{
    return ends_in(name, lock_ending) || ends_in(name, fresh_ending) ||
           (ends_in(name, before_ending) &&
            file->purpose != LAGUNEDO_FILE_TO_READ);
}

static void beside(char *to, const char *name, const char *ending)
{
    snprintf(to, LAGUNEDO_FILE_NAME_ROOM, "%.*s%s", (int)NAME_MOST, name,
             ending);
}

/* Names the four files. */
static enum lagunedo_file_answer name_all(struct lagunedo_file *file,
                                          const char *name)
{
    if (reserved(file, name))
        return LAGUNEDO_FILE_RESERVED;
    if (*name == '\0' || strlen(name) > NAME_MOST) {
        errno = *name == '\0' ? EISDIR : ENAMETOOLONG;
        return lagunedo_file_trouble(file, file->path);
    }
    beside(file->name, name, "");
    beside(file->lock_name, name, lock_ending);
    beside(file->fresh_name, name, fresh_ending);
    beside(file->before_name, name, before_ending);
    return LAGUNEDO_FILE_DONE;
}

/* Opens the directory of a path, which is cut for that. */
static enum lagunedo_file_answer open_directory(struct lagunedo_file *file,
                                                char *path)
{
    char *slash = strrchr(path, '/');
    const char *directory = slash == NULL ? "." : slash == path ? "/" : path;
    enum lagunedo_file_answer answer =
        name_all(file, slash == NULL ? path : slash + 1);

    if (answer != LAGUNEDO_FILE_DONE)
        return answer;
    if (slash != NULL && slash != path)
        *slash = '\0';
    file->directory = open(directory, O_RDONLY | O_DIRECTORY | O_CLOEXEC);
    return file->directory == -1 ? lagunedo_file_trouble(file, file->path)
                                 : LAGUNEDO_FILE_DONE;
}

enum lagunedo_file_answer
lagunedo_file_place(struct lagunedo_file *file, const char *path,
                    enum lagunedo_file_purpose purpose)
{
    char *resolved = realpath(path, NULL);
    enum lagunedo_file_answer answer;

    file->about = file->path = path;
    file->purpose = purpose;
    file->lock = -1;
    if (resolved == NULL && errno == ENOENT &&
        purpose == LAGUNEDO_FILE_TO_MAKE)
        resolved = strdup(path);
    if (resolved == NULL)
        return lagunedo_file_trouble(file, path);
    answer = open_directory(file, resolved);
    free(resolved);
    if (answer != LAGUNEDO_FILE_DONE)
        return answer;
    answer = lagunedo_file_look(file);
    if (answer != LAGUNEDO_FILE_DONE)
        lagunedo_file_leave(file);
    return answer;
}

enum lagunedo_file_answer lagunedo_file_look(struct lagunedo_file *file)
{
    int makes = file->purpose == LAGUNEDO_FILE_TO_MAKE;
    struct stat seen;

    file->found = fstatat(file->directory, file->name, &seen,
                          AT_SYMLINK_NOFOLLOW) == 0;
    if (!file->found)
        return errno == ENOENT && makes
                   ? LAGUNEDO_FILE_DONE
                   : lagunedo_file_trouble(file, file->path);
    file->owner = seen.st_uid;
    file->group = seen.st_gid;
    file->mode = seen.st_mode & 0777;
    if (makes)
        return LAGUNEDO_FILE_EXISTS;
    return S_ISREG(seen.st_mode) ? LAGUNEDO_FILE_DONE
                                 : LAGUNEDO_FILE_NOT_REGULAR;
}

int lagunedo_file_share(const struct lagunedo_file *file, int open_file,
                        mode_t besides)
{
    /* Only root may give a file to another owner; a group's member may not,
     * and then the group's access is what has to stay. */
    if (fchown(open_file, file->owner, file->group) != 0 &&
        fchown(open_file, (uid_t)-1, file->group) != 0)
        return -1;
    return fchmod(open_file, file->mode | besides);
}

/* Closing does not change errno, which may be an answer's. */
void lagunedo_file_leave(struct lagunedo_file *file)
{
    int why = errno;

    lagunedo_file_unlock(file);
    close(file->directory);
    file->directory = -1;
    errno = why;
}
