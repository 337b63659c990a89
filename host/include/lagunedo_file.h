/*
 * Lagunedo: a store in a file, which a job server and the desk may share.
 *
 * The calls of lagunedo.h work on lent memory; this is the file side. The
 * desk keeps every store by these calls, and a server links them as
 * liblagunedo_file.a, which pkg-config lagunedo names too. They need Linux,
 * and C99 or C++11.
 *
 *
 * The protocol
 *
 * Whoever keeps it, by these calls or by their own, shares a store with all
 * who do. Beside the file STORE three names are taken:
 *
 *   STORE.desk-lock    the lock: an empty file, made by the first who takes
 *                      it and never removed
 *   STORE.desk-new     what is about to take another file's place
 *   STORE.desk-before  the store as it was before a change that was kept so
 *
 * 1. Find the place. Symbolic links are followed first, so that two names of
 *    a store share one lock, and the directory is held open from then on.
 * 2. To change a store, lock it: a write lock on the whole of STORE.desk-lock
 *    (fcntl, F_OFD_SETLK), held until the change is made or given up. STORE
 *    itself cannot be locked, since a change puts another file in its place.
 *    To read no lock is needed: a rename is atomic, and whoever opens STORE
 *    has the old or the new one whole.
 * 3. Load the whole store after the lock was taken. Bytes loaded before it
 *    may be another's by now.
 * 4. Make one call of lagunedo.h on them, or for rekeying all steps of the
 *    job. If it is refused, or changed nothing, go to 7.
 * 5. If the change cannot be undone by another call, as rekeying, keep the
 *    old store first: its bytes are written to STORE.desk-new, flushed and
 *    renamed to STORE.desk-before, and the directory is flushed.
 * 6. Replace: the new bytes are written to STORE.desk-new, which is removed
 *    first if it is there and made anew, with the mode, owner and group of
 *    STORE; it is flushed and renamed to STORE, and the directory is flushed.
 *    STORE itself is never written.
 * 7. Unlock. Answer only now.
 *
 * Whenever a run is cut off, by a kill or a loss of power, STORE is the old
 * store or the new one, whole; the lock is gone with the process; and a left
 * STORE.desk-new is nobody's. If STORE is the new one and 5 was done, then
 * STORE.desk-before is the old one: it was on disk before the rename of 6. If
 * STORE is the old one, STORE.desk-before is what it was or the same bytes as
 * STORE, and the same change, made again, keeps them again. A change that is
 * refused, or finds nothing to do, does neither 5 nor 6: so a command that is
 * given again after it had worked does not touch the copy. That is why the
 * desk rekeys by all steps on the bytes that it loaded and one replacement:
 * with one a step, a job that is started again would keep a store that is
 * half converted, perhaps under a wrong key.
 *
 * The answer of a change may be lost after 6. What its call gets when it is
 * made again is said in lagunedo.h, under "Made again".
 *
 *
 * What holds for every call
 *
 * A call answers LAGUNEDO_FILE_DONE or says why not. It prints nothing, keeps
 * nothing but what is in its struct, and allocates nothing for longer than
 * the call. One struct is used by one thread at a time. Threads with a struct
 * each exclude each other by the lock as processes do.
 */

#ifndef LAGUNEDO_FILE_H
#define LAGUNEDO_FILE_H

#include <stddef.h>
#include <stdint.h>
#include <sys/types.h>

#ifdef __cplusplus
extern "C" {
#endif

/*
 * No number stands in lagunedo.h too, so that a server may return either.
 *
 * LAGUNEDO_FILE_DONE         the call did its work
 * LAGUNEDO_FILE_TROUBLE      errno says what is wrong with the file about;
 *                            the store is as it was
 * LAGUNEDO_FILE_NOT_REGULAR  there is no regular file of the store's name
 *                            but something else
 * LAGUNEDO_FILE_RESERVED     the name ends as those that are taken beside a
 *                            store; a copy, STORE.desk-before, may be read
 * LAGUNEDO_FILE_EXISTS       a store is to be made where there is a file
 * LAGUNEDO_FILE_IN_USE       another holds the lock
 * LAGUNEDO_FILE_NOT_LOCKED   the lock is not held, or the place is to read
 * LAGUNEDO_FILE_UNCONFIRMED  the new store is in its place, but its directory
 *                            could not be flushed: a loss of power may undo
 *                            the change
 */
enum lagunedo_file_answer {
    LAGUNEDO_FILE_DONE = 0,
    LAGUNEDO_FILE_TROUBLE = 301,
    LAGUNEDO_FILE_NOT_REGULAR = 302,
    LAGUNEDO_FILE_RESERVED = 303,
    LAGUNEDO_FILE_EXISTS = 304,
    LAGUNEDO_FILE_IN_USE = 305,
    LAGUNEDO_FILE_NOT_LOCKED = 306,
    LAGUNEDO_FILE_UNCONFIRMED = 307
};

/*
 * What a place is for: to load the store, to put another in its place, or to
 * put one where none is. Who may not write a store may not replace it either,
 * though a directory would let them.
 */
enum lagunedo_file_purpose {
    LAGUNEDO_FILE_TO_READ,
    LAGUNEDO_FILE_TO_CHANGE,
    LAGUNEDO_FILE_TO_MAKE
};

enum { LAGUNEDO_FILE_NAME_ROOM = 256 };

/* A place. Its members are the library's; a caller may read about. */
struct lagunedo_file {
    const char *about; /* the file that the last trouble was with */
    const char *path;  /* as it was given */
    enum lagunedo_file_purpose purpose;
    int directory;
    int lock;  /* -1 if it is not held */
    int found; /* whether the store was there at the last look */
    uid_t owner;
    gid_t group;
    mode_t mode;
    char name[LAGUNEDO_FILE_NAME_ROOM];
    char lock_name[LAGUNEDO_FILE_NAME_ROOM];
    char fresh_name[LAGUNEDO_FILE_NAME_ROOM];
    char before_name[LAGUNEDO_FILE_NAME_ROOM];
};

/*
 * Finds the place of a store (1), and looks whether what is there suits the
 * purpose. The path is kept, for about, and has to outlast the struct. Only
 * after LAGUNEDO_FILE_DONE is there anything to leave. A place may be kept for
 * many changes, by a server for as long as it runs.
 *
 * Other answers: TROUBLE, NOT_REGULAR, RESERVED, EXISTS.
 */
enum lagunedo_file_answer
lagunedo_file_place(struct lagunedo_file *file, const char *path,
                    enum lagunedo_file_purpose purpose);

/*
 * Takes the lock (2), and looks again: what is there may have changed. If
 * another has it, the answer is LAGUNEDO_FILE_IN_USE, or with wait other than
 * 0 the call waits, and goes on waiting after a signal. The lock is held until
 * lagunedo_file_unlock, and no longer than the process lives. A child that was
 * forked meanwhile, without exec, holds it too.
 *
 * Other answers: TROUBLE, NOT_REGULAR, EXISTS, IN_USE, NOT_LOCKED.
 */
enum lagunedo_file_answer lagunedo_file_lock(struct lagunedo_file *file,
                                             int wait);

/* Gives the lock back; nothing happens if it is not held. */
void lagunedo_file_unlock(struct lagunedo_file *file);

/*
 * Loads the store (3): its bytes, from the front, until it ends or the room is
 * full, and how many they are. The room is best one byte more than a store may
 * have, LAGUNEDO_SLOT_LIMIT * LAGUNEDO_RECORD_SIZE + 1: a longer file then
 * fills it and is refused by lagunedo.h for its length. A store that is not
 * made yet has no bytes.
 *
 * Other answers: TROUBLE; bytes and length are then not to be used.
 */
enum lagunedo_file_answer lagunedo_file_load(struct lagunedo_file *file,
                                             uint8_t *bytes, size_t room,
                                             size_t *length);

/*
 * Keeps the store that stands in the file as STORE.desk-before (5), in the
 * place of what had that name. To be followed by lagunedo_file_replace.
 *
 * Other answers: TROUBLE, NOT_LOCKED.
 */
enum lagunedo_file_answer lagunedo_file_keep(struct lagunedo_file *file);

/*
 * Puts the bytes in the store's place (6). A place that was to make a store is
 * from then on one to change it.
 *
 * Other answers: TROUBLE, NOT_LOCKED; UNCONFIRMED, and the store is replaced.
 */
enum lagunedo_file_answer lagunedo_file_replace(struct lagunedo_file *file,
                                                const uint8_t *bytes,
                                                size_t length);

/* Unlocks, and leaves the place; the struct may then be used anew. */
void lagunedo_file_leave(struct lagunedo_file *file);

#ifdef __cplusplus
}
#endif

#endif
