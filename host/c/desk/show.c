/*
 * A text may hold any bytes, and at a terminal some of them are commands to
 * it. There newlines, tabs and whatever the locale calls printable are shown,
 * any other byte as \x and two hex digits, and \ as \\, so that no text is
 * taken for an escape.
 */

#include <locale.h>
#include <stdio.h>
#include <string.h>
#include <unistd.h>
#include <wchar.h>
#include <wctype.h>

#include "say.h"
#include "show.h"

/*
 * How many bytes from here on are one printable character; 0 if there is
 * none. A state of its own for each, since one that met bad bytes is spent.
 */
static size_t printable(const char *text, size_t length)
{
    mbstate_t state;
    wchar_t wide;
    size_t size;

    memset(&state, 0, sizeof state);
    size = mbrtowc(&wide, text, length, &state);
    if (size == 0 || size > length)
        return 0;
    return wide == L'\n' || wide == L'\t' || iswprint((wint_t)wide) ? size
                                                                  : 0;
}

/* One character or one byte; gives how many bytes it was. */
static size_t show_next(const char *text, size_t length, size_t *escaped)
{
    size_t size = printable(text, length);

    if (size == 0) {
        printf("\\x%02x", (unsigned)(uint8_t)*text);
        ++*escaped;
        return 1;
    }
    if (*text == '\\')
        putchar('\\');
    fwrite(text, 1, size, stdout);
    return size;
}

void text_show(const uint8_t *text, size_t length, int raw)
{
    size_t at = 0, escaped = 0;

    if (raw || !isatty(STDOUT_FILENO)) {
        fwrite(text, 1, length, stdout);
        return;
    }
    setlocale(LC_CTYPE, "");
    while (at < length)
        at += show_next((const char *)text + at, length - at, &escaped);
    if (escaped == 0)
        return;
    fflush(stdout);
    complain("bytes that cannot be shown, printed as \\x and two digits: %lu; "
             "--raw prints them", (unsigned long)escaped);
}
