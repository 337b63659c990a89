/*
 * A job server's way to a store file that it shares with the desk, in small:
 * one request, to add a sheet, by the protocol of lagunedo_file.h.
 *
 *   server STORE KEYFILE SHEET TEXT
 *
 * A server does this once for each request that changes the store, and keeps
 * the place open between them. It answers only after the replacement, and
 * ends with 0, 1 if the request was refused, 2 if a file would not do.
 */

#include <errno.h>
#include <stdio.h>
#include <stdlib.h>
#include <string.h>

#include "lagunedo.h"
#include "lagunedo_file.h"

/* One byte more than a store may have, so that a longer one is refused. */
enum { ROOM = LAGUNEDO_SLOT_LIMIT * LAGUNEDO_RECORD_SIZE + 1 };

struct key {
    size_t length;
    uint8_t bytes[LAGUNEDO_EME2_KEY_256 + 1];
};

static int key_read(struct key *key, const char *path)
{
    FILE *file = fopen(path, "rb");

    if (file == NULL)
        return 0;
    key->length = fread(key->bytes, 1, sizeof key->bytes, file);
    fclose(file);
    return 1;
}

/* Whether the call did its work; otherwise it is told what is in the way. */
static int done(const struct lagunedo_file *file,
                enum lagunedo_file_answer answer)
{
    if (answer == LAGUNEDO_FILE_TROUBLE)
        fprintf(stderr, "server: %s: %s\n", file->about, strerror(errno));
    else if (answer != LAGUNEDO_FILE_DONE)
        fprintf(stderr, "server: answer %d\n", (int)answer);
    return answer == LAGUNEDO_FILE_DONE;
}

/* The request, on the store that was just locked; a status. */
static int add(struct lagunedo_file *file, const struct key *key,
               uint32_t sheet, const char *text)
{
    static uint8_t store[ROOM];
    uint32_t number, revision;
    size_t length;

    if (!done(file, lagunedo_file_load(file, store, sizeof store, &length)))
        return 2;
    number = lagunedo_add(key->bytes, key->length, key->bytes, key->length,
                          store, length, sheet, (const uint8_t *)text,
                          strlen(text), &revision);
    if (number != LAGUNEDO_DONE) {
        fprintf(stderr, "server: refused with %u\n", (unsigned)number);
        return 1;
    }
    if (!done(file, lagunedo_file_replace(file, store, length)))
        return 2;
    printf("added %u at revision %u\n", (unsigned)sheet, (unsigned)revision);
    return 0;
}

int main(int argc, char **argv)
{
    struct lagunedo_file file;
    struct key key;
    int status = 2;

    if (argc != 5 || !key_read(&key, argv[2])) {
        fprintf(stderr, "server STORE KEYFILE SHEET TEXT\n");
        return 2;
    }
    if (!done(&file, lagunedo_file_place(&file, argv[1],
                                         LAGUNEDO_FILE_TO_CHANGE)))
        return 2;
    if (done(&file, lagunedo_file_lock(&file, 1)))
        status = add(&file, &key, (uint32_t)strtoul(argv[3], NULL, 10),
                     argv[4]);
    lagunedo_file_leave(&file);
    return status;
}
