/*
 * Reading the command line, by getopt_long. Options may stand anywhere, up to
 * a word --.
 */

#include <getopt.h>
#include <string.h>

#include "command.h"
#include "number.h"
#include "option.h"
#include "request.h"
#include "say.h"
#include "status.h"

enum { OPERANDS = 2 + NUMBERS };

/* What getopt_long gives: for a word that is no option, and for ours. */
enum { OPERAND = 1, FIRST_OPTION = 256 };

/* The words, before anything is known of the command. */
struct words {
    const char *operand[OPERANDS];
    size_t operands;
    const char *given[OPTIONS]; /* its value, or "" if it has none */
};

static int wrong(const char *what, const char *word)
{
    complain("%s%s; %s --help tells how", what, word, own_name());
    return DESK_USAGE;
}

static int take_operand(struct words *words, const char *word)
{
    if (words->operands == OPERANDS)
        return wrong("one word too many: ", word);
    words->operand[words->operands++] = word;
    return DESK_DONE;
}

/* What getopt_long got out of the word. */
static int take(struct words *words, int got, const char *word)
{
    size_t i;

    if (got == OPERAND)
        return take_operand(words, optarg);
    if (got == '?')
        return wrong("there is no option ", word);
    if (got == ':')
        return wrong("a word is missing after ", word);
    for (i = 0; i < OPTIONS; i++)
        if (got == FIRST_OPTION + (int)i || got == options[i].letter)
            break;
    if (words->given[i] != NULL && options[i].value != NULL)
        return wrong("given twice: --", options[i].name);
    words->given[i] = options[i].value != NULL ? optarg : "";
    return DESK_DONE;
}

static void long_options(struct option list[OPTIONS + 1])
{
    size_t i;

    memset(list, 0, (OPTIONS + 1) * sizeof *list);
    for (i = 0; i < OPTIONS; i++) {
        list[i].name = options[i].name;
        list[i].has_arg = options[i].value != NULL;
        list[i].val = FIRST_OPTION + (int)i;
    }
}

/* "-" has the operands come in their order, ":" leaves complaining to us. */
static int take_words(struct words *words, int argc, char **argv)
{
    struct option list[OPTIONS + 1];
    int got, status = DESK_DONE;
    const char *word;

    long_options(list);
    while (status == DESK_DONE) {
        word = argv[optind];
        got = getopt_long(argc, argv, "-:h", list, NULL);
        if (got == -1)
            break;
        status = take(words, got, word);
    }
    while (status == DESK_DONE && optind < argc)
        status = take_operand(words, argv[optind++]);
    return status;
}

/* What is asked for in the place of a command; help may be of one. */
static int take_asked(struct request *request, const struct words *words)
{
    const char *first = words->operands == 0 ? NULL : words->operand[0];

    request->asked = words->given[OPTION_HELP] != NULL      ? ASKED_HELP
                     : words->given[OPTION_VERSION] != NULL ? ASKED_VERSION
                     : words->given[OPTION_MAN] != NULL     ? ASKED_MAN
                                                            : ASKED_COMMAND;
    if (first != NULL)
        request->command = command_named(first);
    if (first != NULL && request->command == NULL)
        return wrong("there is no command ", first);
    if (first == NULL && request->asked == ASKED_COMMAND)
        return wrong("there is no command", "");
    return DESK_DONE;
}

static int take_operands(struct request *request, const struct words *words)
{
    const struct command *command = request->command;
    size_t i;

    if ((command->takes & TAKES_NO_STORE) != 0)
        return words->operands == 1
                   ? DESK_DONE
                   : wrong("one word too many: ", words->operand[1]);
    if (words->operands != 2 + command->numbers) {
        complain("%s takes STORE%s; %s --help tells how", command->name,
                 command->operands, own_name());
        return DESK_USAGE;
    }
    request->store = words->operand[1];
    for (i = 0; i < command->numbers; i++)
        if (!number_read(words->operand[2 + i], &request->number[i]))
            return wrong("not a number from 0 to 4294967295: ",
                         words->operand[2 + i]);
    return DESK_DONE;
}

/* Each option that is given goes with the command. */
static int look_at_options(const struct command *command,
                           const struct words *words)
{
    size_t i;

    for (i = 0; i < OPTIONS; i++)
        if (words->given[i] != NULL && options[i].with != 0 &&
            (options[i].with & command->takes) == 0) {
            complain("--%s does not go with %s; %s --help tells how",
                     options[i].name, command->name, own_name());
            return DESK_USAGE;
        }
    return DESK_DONE;
}

/* Both keys from --key, or one from each of the other two options. */
static int take_keys(struct request *request, const struct words *words)
{
    const char *one = words->given[OPTION_KEY];
    const char *old = words->given[OPTION_OLD_KEY];
    const char *new = words->given[OPTION_NEW_KEY];
    int takes = request->command->takes;

    if ((takes & TAKES_ONE_KEY) != 0 && one == NULL)
        return wrong("--key goes with ", request->command->name);
    if ((takes & TAKES_KEYS) != 0 &&
        (one != NULL ? old != NULL || new != NULL
                     : old == NULL || new == NULL))
        return wrong("either --key, or --old-key and --new-key, go with ",
                     request->command->name);
    request->old_key = one != NULL ? one : old;
    request->new_key = one != NULL ? one : new;
    return DESK_DONE;
}

/* A number of 64 bits that an option has to give. */
static int take_number(const struct words *words, enum option_number option,
                       const struct command *command, uint64_t *number)
{
    const char *word = words->given[option];

    if (word == NULL) {
        complain("--%s goes with %s; %s --help tells how",
                 options[option].name, command->name, own_name());
        return DESK_USAGE;
    }
    if (!number_read_64(word, number))
        return wrong("not a number from 0 to 18446744073709551615: ", word);
    return DESK_DONE;
}

/* The unit's key and number, and a block of it. */
static int take_unit(struct request *request, const struct words *words)
{
    const struct command *command = request->command;
    int status;

    if ((command->takes & TAKES_UNIT) == 0)
        return DESK_DONE;
    request->xts_key = words->given[OPTION_XTS_KEY];
    if (request->xts_key == NULL)
        return wrong("--xts-key goes with ", command->name);
    status = take_number(words, OPTION_UNIT, command, &request->unit);
    if (status == DESK_DONE && (command->takes & TAKES_BLOCK) != 0)
        status = take_number(words, OPTION_BLOCK, command, &request->block);
    return status;
}

static int take_rest(struct request *request, const struct words *words)
{
    const char *copies = words->given[OPTION_COPIES];
    const char *seen = words->given[OPTION_SEEN];

    request->wait = words->given[OPTION_WAIT] != NULL;
    request->raw = words->given[OPTION_RAW] != NULL;
    request->copies = 1;
    if (copies != NULL &&
        (!number_read(copies, &request->copies) || request->copies == 0 ||
         request->copies > COPIES_MOST))
        return wrong("not a number of copies from 1 to 64: ", copies);
    if ((request->command->takes & TAKES_SEEN) == 0)
        return DESK_DONE;
    if (seen == NULL)
        return wrong("--seen goes with ", request->command->name);
    if (!fingerprint_read(seen, request->seen))
        return wrong("not a fingerprint of 64 hex digits, as check prints: ",
                     seen);
    return DESK_DONE;
}

int request_read(struct request *request, int argc, char **argv)
{
    struct words words;
    int status;

    memset(&words, 0, sizeof words);
    memset(request, 0, sizeof *request);
    status = take_words(&words, argc, argv);
    if (status == DESK_DONE)
        status = take_asked(request, &words);
    if (status != DESK_DONE || request->asked != ASKED_COMMAND)
        return status;
    status = take_operands(request, &words);
    if (status == DESK_DONE)
        status = look_at_options(request->command, &words);
    if (status == DESK_DONE)
        status = take_keys(request, &words);
    if (status == DESK_DONE)
        status = take_unit(request, &words);
    if (status == DESK_DONE)
        status = take_rest(request, &words);
    return status;
}
