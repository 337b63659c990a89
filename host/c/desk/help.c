/*
 * The help: usage, options and statuses come from their tables, so that they
 * are those of the program.
 */

#include <stdio.h>

#include "help.h"
#include "manual.h"
#include "option.h"
#include "page.h"
#include "say.h"
#include "status.h"

enum { TERM_ROOM = 64, USAGE_ROOM = 256, TERMS_END = 27, STATUSES_END = 7 };

const char *help_usage(const struct command *command)
{
    static char usage[TERM_ROOM];

    snprintf(usage, sizeof usage, "%s%s%s", command->name,
             (command->takes & TAKES_NO_STORE) != 0 ? "" : " STORE",
             command->operands);
    return usage;
}

const char *help_option(size_t number)
{
    static char term[TERM_ROOM];
    const struct option_row *option = &options[number];
    int at = 0;

    if (option->letter != 0)
        at = snprintf(term, sizeof term, "-%c, ", option->letter);
    snprintf(term + at, sizeof term - (size_t)at, "--%s%s%s", option->name,
             option->value == NULL ? "" : " ",
             option->value == NULL ? "" : option->value);
    return term;
}

/* Those that go with a command, or all. */
static void show_options(const struct command *command)
{
    size_t i;

    printf("\noptions:\n");
    for (i = 0; i < OPTIONS; i++)
        if (command == NULL || (command->takes & options[i].with) != 0)
            page_row(help_option(i), TERMS_END, options[i].meaning);
}

static void show_statuses(void)
{
    const char *meaning;
    char term[TERM_ROOM];
    int status;
    size_t i;

    printf("\nexit status:\n");
    for (i = 0; status_row(i, &status, &meaning); i++) {
        snprintf(term, sizeof term, "%3d", status);
        page_row(term, STATUSES_END, meaning);
    }
    putchar('\n');
    page_paragraph(0, manual_statuses);
}

static void show_part(const struct part *part)
{
    size_t i;

    printf("\n%s:\n", part->title);
    for (i = 0; part->paragraph[i] != NULL; i++) {
        if (i > 0)
            putchar('\n');
        page_paragraph(2, part->paragraph[i]);
    }
}

static void help_of_all(void)
{
    size_t i;

    printf("usage: %s COMMAND [STORE] [NUMBERS] [OPTIONS]\n", own_name());
    printf("       %s --help [COMMAND]\n\n", own_name());
    page_paragraph(0, manual_purpose);
    printf("\ncommands:\n");
    for (i = 0; i < COMMANDS; i++)
        page_row(help_usage(&commands[i]), TERMS_END, commands[i].summary);
    show_options(NULL);
    for (i = 0; i < PARTS; i++)
        show_part(&manual[i]);
    show_statuses();
    printf("\nexamples:\n");
    for (i = 0; manual_examples[i] != NULL; i++)
        printf("  %s %s\n", own_name(), manual_examples[i]);
}

/* What has to be given is named; a pair of keys may stand for the one. */
static void show_usage(const struct command *command)
{
    int takes = command->takes;
    char usage[USAGE_ROOM];

    snprintf(usage, sizeof usage, "%s %s%s%s%s%s%s", own_name(),
             help_usage(command),
             (takes & (TAKES_KEYS | TAKES_ONE_KEY)) != 0 ? " --key FILE" : "",
             (takes & TAKES_SEEN) != 0 ? " --seen FINGERPRINT" : "",
             (takes & TAKES_UNIT) != 0 ? " --xts-key FILE --unit N" : "",
             (takes & TAKES_BLOCK) != 0 ? " --block K" : "",
             takes != 0 ? " [OPTIONS]" : "");
    page_usage(usage);
    putchar('\n');
}

void help_print(const struct command *command)
{
    if (command == NULL) {
        help_of_all();
        return;
    }
    show_usage(command);
    page_paragraph(2, command->summary);
    putchar('\n');
    page_paragraph(0, command->details);
    if (command->takes != 0)
        show_options(command);
    printf("\n%s --help tells of every command and exit status.\n",
           own_name());
}
