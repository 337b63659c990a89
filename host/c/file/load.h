/*
 * Opening the store that stands in the file.
 */

#ifndef FILE_LOAD_H
#define FILE_LOAD_H

#include "place.h"

/* The open file, or -1 with errno set. */
int lagunedo_file_open(const struct lagunedo_file *file);

#endif
