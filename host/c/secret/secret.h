/*
 * Secret bytes, and what the files of this test share.
 *
 * Valgrind's memcheck knows of each bit whether it is defined, and follows
 * those that are not through every instruction. It reports where a jump, or
 * the address of a read or a write, depends on one. So a secret that memcheck
 * takes for undefined may be worked with and moved about, and what would show
 * in the time that it takes, or in the cache line that it touches, is
 * reported. Without valgrind nothing is followed, and the test refuses to run.
 */

#ifndef SECRET_H
#define SECRET_H

#include <stddef.h>

/* Every bit of the bytes is secret from here on. */
void hide(void *bytes, size_t length);

/* None is. */
void show(void *bytes, size_t length);

/*
 * Whether every bit is secret. What is made of secret bytes has to be: if it
 * is not, they were not hidden, or memcheck has lost them on the way.
 */
int all_hidden(const void *bytes, size_t length);

/* Whether no bit is. */
int none_hidden(const void *bytes, size_t length);

/* Counts one check; a failed one is printed. */
void checked(int holds, const char *call, const char *what);

/*
 * The checks, a file each, and the names of the library's calls that they
 * make, a line each.
 */
void secret_ciphers(void);
void secret_store(void);
void secret_substitution(void);
void secret_look_up(void);
void secret_branch(void);
void cipher_names(void);
void store_names(void);

#endif
