/*
 * One record as 01 tables it, for tests: the text on standard input under a
 * lead of these fields, enciphered if a key is named, on standard output.
 * Sheet 0 without a text is a free slot.
 *
 *   make_record SHEET REVISION MARK [KEY] <TEXT >RECORD
 */

#include <stdio.h>
#include <string.h>

#include "../../record.h"
#include "../input.h"
#include "../number.h"
#include "../say.h"

static int make(uint8_t *record, struct lead lead, const char *key_file)
{
    static struct text text;
    struct key key;

    if (text_read(&text) != 0 || text.length > LAGUNEDO_TEXT_MOST)
        return 0;
    lead.length = (uint32_t)text.length;
    lead_write(record, lead);
    memcpy(record + LAGUNEDO_LEAD_SIZE, text.bytes, text.length);
    return key_file == NULL ||
           (key_read(key_file, &key) == 0 &&
            lagunedo_eme2_encipher(key.bytes, key.length, record,
                                   LAGUNEDO_LEAD_SIZE,
                                   record + LAGUNEDO_LEAD_SIZE,
                                   text.length) == LAGUNEDO_DONE);
}

int main(int argc, char **argv)
{
    static uint8_t record[LAGUNEDO_RECORD_SIZE];
    struct lead lead = { 0, 0, 0, 0 };
    uint32_t mark;

    if (argc < 4 || argc > 5 || !number_read(argv[1], &lead.sheet) ||
        !number_read(argv[2], &lead.revision) ||
        !number_read(argv[3], &mark)) {
        complain("make_record SHEET REVISION MARK [KEY]");
        return 2;
    }
    lead.mark = (uint8_t)mark;
    if (!make(record, lead, argc == 5 ? argv[4] : NULL)) {
        complain("there is no such record");
        return 1;
    }
    return fwrite(record, sizeof record, 1, stdout) == 1 ? 0 : 1;
}
