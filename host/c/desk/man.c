/*
 * The man page, from the same tables and words as the help.
 */

#include <ctype.h>
#include <stdio.h>

#include "command.h"
#include "help.h"
#include "lagunedo.h"
#include "man.h"
#include "manual.h"
#include "option.h"
#include "status.h"

static const char installed[] = "lagunedo-desk";

/* One line of text. A dot or a quote before it would make it a macro. */
static void line(const char *text)
{
    if (*text == '.' || *text == '\'')
        printf("\\&");
    for (; *text != '\0'; text++)
        switch (*text) {
        case '\\':
            printf("\\e");
            break;
        case '-':
            printf("\\-");
            break;
        default:
            putchar(*text);
        }
    putchar('\n');
}

static void row(const char *term, const char *text)
{
    printf(".TP\n.B ");
    line(term);
    line(text);
}

/* Titles stand in capitals there. */
static void title(const char *text)
{
    printf(".SH ");
    for (; *text != '\0'; text++)
        putchar(toupper((unsigned char)*text));
    putchar('\n');
}

static void part(const struct part *part)
{
    size_t i;

    title(part->title);
    for (i = 0; part->paragraph[i] != NULL; i++) {
        if (i > 0)
            printf(".PP\n");
        line(part->paragraph[i]);
    }
}

static void show_commands(void)
{
    size_t i;

    title("commands");
    for (i = 0; i < COMMANDS; i++) {
        row(help_usage(&commands[i]), commands[i].summary);
        printf(".RS\n.PP\n");
        line(commands[i].details);
        printf(".RE\n");
    }
}

static void show_statuses(void)
{
    const char *meaning;
    char term[8];
    int status;
    size_t i;

    title("exit status");
    line(manual_statuses);
    for (i = 0; status_row(i, &status, &meaning); i++) {
        snprintf(term, sizeof term, "%d", status);
        row(term, meaning);
    }
}

static void show_examples(void)
{
    size_t i;

    title("examples");
    printf(".nf\n");
    for (i = 0; manual_examples[i] != NULL; i++) {
        printf("%s ", installed);
        line(manual_examples[i]);
    }
    printf(".fi\n");
}

void man_print(void)
{
    size_t i;

    printf(".TH LAGUNEDO-DESK 1 \"\" \"Lagunedo %s\"\n", LAGUNEDO_VERSION);
    title("name");
    printf("%s \\- the sheets of a store file, at a terminal\n", installed);
    title("synopsis");
    printf(".B %s\n.I COMMAND\n[\\fISTORE\\fP] [\\fINUMBERS\\fP] "
           "[\\fIOPTIONS\\fP]\n",
           installed);
    title("description");
    line(manual_purpose);
    show_commands();
    title("options");
    for (i = 0; i < OPTIONS; i++)
        row(help_option(i), options[i].meaning);
    for (i = 0; i < PARTS; i++)
        part(&manual[i]);
    show_statuses();
    show_examples();
    title("see also");
    printf(".BR lagunedo\\-listing (1),\n.BR lagunedo (3)\n");
}
