/*
 * The calls of lagunedo_file.h, one by one, in an empty directory that is the
 * working directory: what each answers, and what stands in it afterwards. It
 * is linked so that every flush and rename goes through this file (ld's
 * --wrap): their order is looked at, and each is made to fail.
 */

#include <errno.h>
#include <fcntl.h>
#include <stdio.h>
#include <string.h>
#include <sys/stat.h>
#include <sys/wait.h>
#include <unistd.h>

#include "lagunedo_file.h"

static int checks;

/* The first check that fails ends the test. */
static int check(int holds, const char *what)
{
    if (holds) {
        checks++;
        return 1;
    }
    fprintf(stderr, "file: FAILED: %s (errno %d)\n", what, errno);
    return 0;
}

#define CHECK(holds)               \
    do                             \
        if (!check(holds, #holds)) \
            return 0;              \
    while (0)

/* What happened: f a file flushed, d a directory flushed, r a rename. */
static char happened[32];
static size_t happenings;
static size_t fails_at; /* the first is 1; 0 for none */
static int fails_with;

static int happens(char what)
{
    happened[happenings++ % (sizeof happened - 1)] = what;
    if (happenings != fails_at)
        return 1;
    errno = fails_with;
    return 0;
}

static void from_now(size_t at, int with)
{
    memset(happened, 0, sizeof happened);
    happenings = 0;
    fails_at = at;
    fails_with = with;
}

int __real_fsync(int file);
int __real_renameat(int from, const char *old, int to, const char *new);
int __wrap_fsync(int file);
int __wrap_renameat(int from, const char *old, int to, const char *new);

int __wrap_fsync(int file)
{
    struct stat seen;

    if (fstat(file, &seen) != 0)
        return -1;
    return happens(S_ISDIR(seen.st_mode) ? 'd' : 'f') ? __real_fsync(file)
                                                      : -1;
}

int __wrap_renameat(int from, const char *old, int to, const char *new)
{
    return happens('r') ? __real_renameat(from, old, to, new) : -1;
}

static const uint8_t monday[] = "the store of Monday";
static const uint8_t tuesday[] = "Tuesday's";

static int holds(const char *name, const uint8_t *bytes, size_t length)
{
    uint8_t found[64];
    FILE *file = fopen(name, "rb");
    size_t got;

    if (file == NULL)
        return 0;
    got = fread(found, 1, sizeof found, file);
    fclose(file);
    return got == length && memcmp(found, bytes, length) == 0;
}

static int absent(const char *name)
{
    struct stat seen;

    return lstat(name, &seen) != 0 && errno == ENOENT;
}

/* A store is made, and from then on the same place changes it. */
static int makes(void)
{
    struct lagunedo_file file;
    uint8_t bytes[8];
    size_t length = 7;

    CHECK(lagunedo_file_place(&file, "store", LAGUNEDO_FILE_TO_MAKE) ==
          LAGUNEDO_FILE_DONE);
    CHECK(lagunedo_file_replace(&file, monday, sizeof monday) ==
          LAGUNEDO_FILE_NOT_LOCKED);
    CHECK(lagunedo_file_keep(&file) == LAGUNEDO_FILE_NOT_LOCKED);
    CHECK(absent("store") && absent("store.desk-new"));
    CHECK(lagunedo_file_lock(&file, 0) == LAGUNEDO_FILE_DONE);
    CHECK(lagunedo_file_load(&file, bytes, sizeof bytes, &length) ==
          LAGUNEDO_FILE_DONE);
    CHECK(length == 0);
    errno = 0;
    CHECK(lagunedo_file_keep(&file) == LAGUNEDO_FILE_TROUBLE);
    CHECK(errno == ENOENT && strcmp(file.about, "store") == 0);
    CHECK(lagunedo_file_replace(&file, monday, sizeof monday) ==
          LAGUNEDO_FILE_DONE);
    CHECK(holds("store", monday, sizeof monday));
    lagunedo_file_unlock(&file);
    CHECK(lagunedo_file_lock(&file, 0) == LAGUNEDO_FILE_DONE);
    lagunedo_file_leave(&file);
    CHECK(lagunedo_file_place(&file, "store", LAGUNEDO_FILE_TO_MAKE) ==
          LAGUNEDO_FILE_EXISTS);
    return 1;
}

/* A room that is too small is filled, and tells nothing of the rest. */
static int loads(void)
{
    struct lagunedo_file file;
    uint8_t bytes[sizeof monday + 1];
    size_t length;

    CHECK(lagunedo_file_place(&file, "store", LAGUNEDO_FILE_TO_READ) ==
          LAGUNEDO_FILE_DONE);
    CHECK(lagunedo_file_load(&file, bytes, sizeof bytes, &length) ==
          LAGUNEDO_FILE_DONE);
    CHECK(length == sizeof monday && memcmp(bytes, monday, length) == 0);
    CHECK(lagunedo_file_load(&file, bytes, 4, &length) ==
          LAGUNEDO_FILE_DONE);
    CHECK(length == 4);
    CHECK(lagunedo_file_lock(&file, 0) == LAGUNEDO_FILE_NOT_LOCKED);
    CHECK(lagunedo_file_replace(&file, monday, 1) ==
          LAGUNEDO_FILE_NOT_LOCKED);
    CHECK(unlink("store") == 0);
    CHECK(lagunedo_file_load(&file, bytes, sizeof bytes, &length) ==
          LAGUNEDO_FILE_TROUBLE);
    CHECK(errno == ENOENT && strcmp(file.about, "store") == 0);
    lagunedo_file_leave(&file);
    return 1;
}

/* How another process fares that takes the older kind of lock on the file. */
static int older_kind_refused(const char *name)
{
    struct flock whole;
    int file, status = 0;
    pid_t child = fork();

    if (child == 0) {
        memset(&whole, 0, sizeof whole);
        whole.l_type = F_WRLCK;
        whole.l_whence = SEEK_SET;
        file = open(name, O_RDWR);
        _exit(file != -1 && fcntl(file, F_SETLK, &whole) == -1 &&
                      (errno == EACCES || errno == EAGAIN)
                  ? 0
                  : 1);
    }
    return child > 0 && waitpid(child, &status, 0) == child && status == 0;
}

/* Two places of one process exclude each other, as two threads would. */
static int locks(void)
{
    struct lagunedo_file one, two;

    CHECK(lagunedo_file_place(&one, "store", LAGUNEDO_FILE_TO_CHANGE) ==
          LAGUNEDO_FILE_DONE);
    CHECK(lagunedo_file_place(&two, "./store", LAGUNEDO_FILE_TO_CHANGE) ==
          LAGUNEDO_FILE_DONE);
    CHECK(lagunedo_file_lock(&one, 0) == LAGUNEDO_FILE_DONE);
    CHECK(lagunedo_file_lock(&two, 0) == LAGUNEDO_FILE_IN_USE);
    CHECK(lagunedo_file_replace(&two, monday, 1) ==
          LAGUNEDO_FILE_NOT_LOCKED);
    CHECK(lagunedo_file_lock(&two, 0) == LAGUNEDO_FILE_IN_USE);
    CHECK(older_kind_refused("store.desk-lock"));
    lagunedo_file_unlock(&one);
    CHECK(lagunedo_file_lock(&two, 1) == LAGUNEDO_FILE_DONE);
    CHECK(lagunedo_file_lock(&one, 0) == LAGUNEDO_FILE_IN_USE);
    lagunedo_file_leave(&two);
    CHECK(lagunedo_file_lock(&one, 0) == LAGUNEDO_FILE_DONE);
    lagunedo_file_leave(&one);
    return 1;
}

/* The copy is of the store that keep found, and replacing leaves it. */
static int keeps(void)
{
    struct lagunedo_file file;

    CHECK(lagunedo_file_place(&file, "store", LAGUNEDO_FILE_TO_CHANGE) ==
          LAGUNEDO_FILE_DONE);
    CHECK(lagunedo_file_lock(&file, 0) == LAGUNEDO_FILE_DONE);
    CHECK(lagunedo_file_keep(&file) == LAGUNEDO_FILE_DONE);
    CHECK(holds("store", monday, sizeof monday));
    CHECK(holds("store.desk-before", monday, sizeof monday));
    CHECK(lagunedo_file_replace(&file, tuesday, sizeof tuesday) ==
          LAGUNEDO_FILE_DONE);
    CHECK(holds("store", tuesday, sizeof tuesday));
    CHECK(holds("store.desk-before", monday, sizeof monday));
    CHECK(lagunedo_file_replace(&file, monday, sizeof monday) ==
          LAGUNEDO_FILE_DONE);
    CHECK(holds("store.desk-before", monday, sizeof monday));
    CHECK(absent("store.desk-new"));
    lagunedo_file_leave(&file);
    return 1;
}

/* Names that belong to the store beside them, and what is no file. */
static int refuses(void)
{
    struct lagunedo_file file;

    CHECK(lagunedo_file_place(&file, "store.desk-before",
                              LAGUNEDO_FILE_TO_READ) == LAGUNEDO_FILE_DONE);
    lagunedo_file_leave(&file);
    CHECK(lagunedo_file_place(&file, "store.desk-before",
                              LAGUNEDO_FILE_TO_CHANGE) ==
          LAGUNEDO_FILE_RESERVED);
    CHECK(lagunedo_file_place(&file, "store.desk-lock",
                              LAGUNEDO_FILE_TO_READ) ==
          LAGUNEDO_FILE_RESERVED);
    CHECK(lagunedo_file_place(&file, "other.desk-new",
                              LAGUNEDO_FILE_TO_MAKE) ==
          LAGUNEDO_FILE_RESERVED);
    CHECK(mkdir("folder", 0777) == 0);
    CHECK(lagunedo_file_place(&file, "folder", LAGUNEDO_FILE_TO_CHANGE) ==
          LAGUNEDO_FILE_NOT_REGULAR);
    CHECK(lagunedo_file_place(&file, "none", LAGUNEDO_FILE_TO_CHANGE) ==
          LAGUNEDO_FILE_TROUBLE);
    CHECK(errno == ENOENT && strcmp(file.about, "none") == 0);
    return 1;
}

/* A copy that cannot be made leaves the store and what was copied before. */
static int copies_or_not(void)
{
    struct lagunedo_file file;

    CHECK(lagunedo_file_place(&file, "store", LAGUNEDO_FILE_TO_CHANGE) ==
          LAGUNEDO_FILE_DONE);
    CHECK(lagunedo_file_lock(&file, 0) == LAGUNEDO_FILE_DONE);
    CHECK(unlink("store.desk-before") == 0);
    CHECK(mkdir("store.desk-before", 0777) == 0);
    CHECK(lagunedo_file_keep(&file) == LAGUNEDO_FILE_TROUBLE);
    CHECK(strcmp(file.about, "store.desk-new") == 0);
    CHECK(absent("store.desk-new"));
    CHECK(holds("store", monday, sizeof monday));
    CHECK(rmdir("store.desk-before") == 0);
    lagunedo_file_leave(&file);
    return 1;
}

/* The copy is on disk, with its name, before the store is replaced. */
static int in_order(struct lagunedo_file *file)
{
    from_now(0, 0);
    CHECK(lagunedo_file_keep(file) == LAGUNEDO_FILE_DONE);
    CHECK(lagunedo_file_replace(file, tuesday, sizeof tuesday) ==
          LAGUNEDO_FILE_DONE);
    CHECK(strcmp(happened, "frdfrd") == 0);
    from_now(3, EINVAL); /* a directory that cannot be flushed at all */
    CHECK(lagunedo_file_replace(file, monday, sizeof monday) ==
          LAGUNEDO_FILE_DONE);
    return 1;
}

/* Up to the rename the old store stands, and after it the new one. */
static int fails_soundly(struct lagunedo_file *file, size_t at)
{
    from_now(at, EIO);
    CHECK(lagunedo_file_keep(file) == LAGUNEDO_FILE_TROUBLE && errno == EIO);
    CHECK(holds("store", monday, sizeof monday) && absent("store.desk-new"));
    CHECK(at < 3 ? holds("store.desk-before", tuesday, sizeof tuesday)
                 : holds("store.desk-before", monday, sizeof monday));
    from_now(at, EIO);
    CHECK(lagunedo_file_replace(file, tuesday, sizeof tuesday) ==
          (at < 3 ? LAGUNEDO_FILE_TROUBLE : LAGUNEDO_FILE_UNCONFIRMED));
    CHECK(errno == EIO && absent("store.desk-new"));
    CHECK(at < 3 ? holds("store", monday, sizeof monday)
                 : holds("store", tuesday, sizeof tuesday));
    return 1;
}

static int flushes(void)
{
    struct lagunedo_file file;
    size_t at;

    CHECK(lagunedo_file_place(&file, "store", LAGUNEDO_FILE_TO_CHANGE) ==
          LAGUNEDO_FILE_DONE);
    CHECK(lagunedo_file_lock(&file, 0) == LAGUNEDO_FILE_DONE);
    if (!in_order(&file))
        return 0;
    CHECK(lagunedo_file_replace(&file, tuesday, sizeof tuesday) ==
          LAGUNEDO_FILE_DONE);
    CHECK(lagunedo_file_keep(&file) == LAGUNEDO_FILE_DONE);
    CHECK(lagunedo_file_replace(&file, monday, sizeof monday) ==
          LAGUNEDO_FILE_DONE);
    for (at = 1; at <= 3; at++)
        if (!fails_soundly(&file, at))
            return 0;
    from_now(0, 0);
    lagunedo_file_leave(&file);
    return 1;
}

int main(void)
{
    if (!makes() || !loads() || !makes() || !locks() || !keeps() ||
        !refuses() || !copies_or_not() || !flushes())
        return 1;
    printf("file: %d checks passed\n", checks);
    return 0;
}
