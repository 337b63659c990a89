/*
 * Filling lines.
 */

#include <stdio.h>
#include <string.h>

#include "page.h"

enum { WIDTH = 79, TERM_AT = 2 };

/* The words from a line on which so much stands already. */
static void fill(int at, int column, const char *text)
{
    int begun = 0, size;

    while (*text != '\0') {
        size = (int)strcspn(text, " ");
        if (begun && at + 1 + size > WIDTH) {
            putchar('\n');
            at = begun = 0;
        }
        if (!begun)
            at += printf("%*s", column - at, "");
        else
            at += printf(" ");
        at += printf("%.*s", size, text);
        begun = 1;
        text += size;
        text += strspn(text, " ");
    }
    putchar('\n');
}

void page_paragraph(int column, const char *text)
{
    fill(0, column, text);
}

/* A term that reaches into the column has a line of its own. */
void page_row(const char *term, int column, const char *text)
{
    int at = printf("%*s%s", TERM_AT, "", term);

    if (at + 2 > column) {
        putchar('\n');
        at = 0;
    }
    fill(at, column, text);
}

void page_usage(const char *text)
{
    int at = printf("usage: ");

    fill(at, at, text);
}
