/*
 * What the files of this library share about a place.
 */

#ifndef FILE_PLACE_H
#define FILE_PLACE_H

#include "lagunedo_file.h"

/* Looks what is there, and whether it suits the purpose. */
enum lagunedo_file_answer lagunedo_file_look(struct lagunedo_file *file);

/*
 * Gives an open file the store's owner, group and mode, and these bits of a
 * mode besides. 0, or -1 with errno set.
 */
int lagunedo_file_share(const struct lagunedo_file *file, int open_file,
                        mode_t besides);

/* TROUBLE with the file of this name; errno is set. */
enum lagunedo_file_answer lagunedo_file_trouble(struct lagunedo_file *file,
                                                const char *about);

#endif
