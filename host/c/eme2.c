/*
 * eme2: one message through EME2-AES, at a terminal. --help is its manual.
 *
 * It is for looking at stored bytes by hand and for docs/LESSONS.md, and
 * shares with desk how bytes are read, what is said of trouble, and the
 * statuses.
 */

#include <stdio.h>
#include <string.h>
#include <unistd.h>

#include "desk/input.h"
#include "desk/say.h"
#include "desk/status.h"
#include "file/bytes.h"
#include "lagunedo.h"

/* One byte more than the library takes (01, numbers 2 and 3). */
enum {
    MESSAGE_ROOM = LAGUNEDO_MESSAGE_MOST + 1,
    DATA_ROOM = LAGUNEDO_DATA_MOST + 1
};

typedef uint32_t transform(const uint8_t *, size_t, const uint8_t *, size_t,
                           uint8_t *, size_t);

struct request {
    transform *transform;
    const char *key, *data; /* files; data is NULL without --ad */
};

static const char manual[] =
    "usage: eme2 encipher|decipher KEYFILE [--ad FILE] <MESSAGE >RESULT\n"
    "       eme2 --help|--version\n"
    "\n"
    "Enciphers or deciphers one message with EME2-AES, byte for byte.\n"
    "\n"
    "KEYFILE holds exactly 48 or 64 bytes; FILE holds the associated data, 0\n"
    "to 1,024 bytes, and without --ad there is none. The message has 16 to\n"
    "65,536 bytes, and the result has as many.\n"
    "\n"
    "Nothing shows that a key or the associated data is wrong, or that bytes\n"
    "were changed: the result is then other bytes, and the status 0.\n"
    "\n"
    "exit status: 0, a refusal of the library (1 the key's length, 2 the\n"
    "message's, 3 the associated data's), 102 for wrong usage, 104 for a file\n"
    "that could not be read or written.\n";

static const char version[] = "eme2 (Lagunedo) " LAGUNEDO_VERSION "\n";

static transform *transform_named(const char *word)
{
    if (strcmp(word, "encipher") == 0)
        return lagunedo_eme2_encipher;
    if (strcmp(word, "decipher") == 0)
        return lagunedo_eme2_decipher;
    return NULL;
}

/* The command line; DESK_DONE, or DESK_USAGE after a complaint. */
static int request_read(struct request *request, int argc, char **argv)
{
    int with_data = argc == 5 && strcmp(argv[3], "--ad") == 0;

    if (argc == 3 || with_data) {
        request->transform = transform_named(argv[1]);
        request->key = argv[2];
        request->data = with_data ? argv[4] : NULL;
        if (request->transform != NULL)
            return DESK_DONE;
    }
    complain("wrong usage; %s --help tells how", own_name());
    return DESK_USAGE;
}

static int result_write(const uint8_t *bytes, size_t length)
{
    if (fwrite(bytes, 1, length, stdout) == length && fflush(stdout) == 0)
        return DESK_DONE;
    return file_trouble("standard output");
}

static int serve(const struct request *request)
{
    static uint8_t data[DATA_ROOM], message[MESSAGE_ROOM];
    size_t data_length = 0, length;
    struct key key;
    uint32_t number;
    int status = key_read(request->key, &key);

    if (status == DESK_DONE && request->data != NULL)
        status = file_read(request->data, data, sizeof data, &data_length);
    if (status != DESK_DONE)
        return status;
    if (lagunedo_file_bytes_read(STDIN_FILENO, message, sizeof message,
                                 &length) != 0)
        return file_trouble("standard input");
    number = request->transform(key.bytes, key.length, data, data_length,
                                message, length);
    return number == LAGUNEDO_DONE ? result_write(message, length)
                                   : refused(number);
}

/* What --help and --version print; NULL for any other word. */
static const char *told(const char *word)
{
    if (strcmp(word, "--help") == 0)
        return manual;
    return strcmp(word, "--version") == 0 ? version : NULL;
}

int main(int argc, char **argv)
{
    struct request request;
    const char *text = argc == 2 ? told(argv[1]) : NULL;
    int status;

    if (argc < 1)
        return DESK_USAGE;
    say_as(argv[0]);
    if (text != NULL)
        return result_write((const uint8_t *)text, strlen(text));
    status = request_read(&request, argc, argv);
    return status == DESK_DONE ? serve(&request) : status;
}
