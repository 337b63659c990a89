/*
 * Text on standard output, filled so that no line is longer than 79 columns.
 */

#ifndef DESK_PAGE_H
#define DESK_PAGE_H

/* The words of the text, in lines that begin at the column. */
void page_paragraph(int column, const char *text);

/* The same after a term, which stands at column 2 of the first line. */
void page_row(const char *term, int column, const char *text);

/* A way to call a program, after "usage: ". */
void page_usage(const char *text);

#endif
