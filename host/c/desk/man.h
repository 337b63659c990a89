/*
 * What --man prints.
 */

#ifndef DESK_MAN_H
#define DESK_MAN_H

/* The man page of the desk under its installed name, in man(7)'s macros. */
void man_print(void);

#endif
