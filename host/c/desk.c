/*
 * desk: the sheets of a store file, at a terminal. --help is its manual.
 *
 * A run is: read the command line (desk/request.c, by the tables in
 * desk/command.c and desk/option.c), gather keys and text or unit
 * (desk/input.c), lock and load the store (desk/store_file.c), and make the
 * command's call (desk/survey.c, desk/sheets.c, desk/begin.c, desk/rekey.c,
 * desk/block.c). All input is read before the lock is taken, so that nobody
 * waits for an operator who types.
 */

#include <fcntl.h>
#include <signal.h>
#include <stdio.h>
#include <unistd.h>

#include "desk/command.h"
#include "desk/help.h"
#include "desk/man.h"
#include "desk/say.h"
#include "desk/status.h"

/*
 * Were one of the three standard streams closed, the next file opened would
 * get its number, and an answer could be written into a store.
 */
static int streams_open(void)
{
    return fcntl(STDIN_FILENO, F_GETFD) != -1 &&
           fcntl(STDOUT_FILENO, F_GETFD) != -1 &&
           fcntl(STDERR_FILENO, F_GETFD) != -1;
}

/* With --key both are one file, which may be a pipe, to be read once. */
static int gather_keys(struct desk *desk)
{
    const struct request *request = &desk->request;
    int status = key_read(request->old_key, &desk->old_key);

    if (status != DESK_DONE)
        return status;
    if (request->new_key != request->old_key)
        return key_read(request->new_key, &desk->new_key);
    desk->new_key = desk->old_key;
    return DESK_DONE;
}

/* Everything but the store. */
static int gather(struct desk *desk)
{
    int takes = desk->request.command->takes;
    int status = DESK_DONE;

    if ((takes & (TAKES_KEYS | TAKES_ONE_KEY)) != 0)
        status = gather_keys(desk);
    if (status == DESK_DONE && (takes & TAKES_UNIT) != 0)
        status = key_read(desk->request.xts_key, &desk->xts_key);
    if (status == DESK_DONE && (takes & TAKES_UNIT) != 0)
        status = unit_read(&desk->unit);
    if (status == DESK_DONE && (takes & TAKES_TEXT) != 0)
        status = text_read(&desk->text);
    return status;
}

static int serve(struct desk *desk)
{
    const struct request *request = &desk->request;
    const struct command *command = request->command;
    int status = gather(desk);

    if (status != DESK_DONE)
        return status;
    if ((command->takes & TAKES_NO_STORE) != 0)
        return command->run(desk);
    status = store_open(&desk->store, request->store, command->purpose,
                        request->wait);
    if (status != DESK_DONE)
        return status;
    status = command->run(desk);
    store_close(&desk->store);
    return status;
}

static int answer(struct desk *desk)
{
    switch (desk->request.asked) {
    case ASKED_HELP:
        help_print(desk->request.command);
        return DESK_DONE;
    case ASKED_VERSION:
        printf("%s (Lagunedo) %s\n", own_name(), LAGUNEDO_VERSION);
        return DESK_DONE;
    case ASKED_MAN:
        man_print();
        return DESK_DONE;
    default:
        return serve(desk);
    }
}

/* An answer that did not get out is none, though the change may stand. */
static int answered(const struct desk *desk, int status)
{
    if (fflush(stdout) == 0 && !ferror(stdout))
        return status;
    complain("the answer could not be printed");
    return desk->store.replaced ? DESK_UNCONFIRMED : DESK_FILE;
}

int main(int argc, char **argv)
{
    static struct desk desk;
    int status;

    if (argc < 1)
        return DESK_USAGE;
    say_as(argv[0]);
    if (!streams_open()) {
        complain("standard input, output or error is closed");
        return DESK_FILE;
    }
    /* A reader that has gone away is trouble to be told, not an end. */
    signal(SIGPIPE, SIG_IGN);
    status = request_read(&desk.request, argc, argv);
    if (status != DESK_DONE)
        return status;
    return answered(&desk, answer(&desk));
}
