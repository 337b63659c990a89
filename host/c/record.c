/*
 * Where the fields of a lead stand, and how their numbers are written: 01,
 * "The store", with the revision's two halves of 02, order 1.
 */

#include <stddef.h>
#include <string.h>

#include "lagunedo.h"
#include "record.h"

enum {
    SHEET_AT = 0,
    SHEET_SIZE = 4,
    REVISION_LOW_AT = 4,
    REVISION_HIGH_AT = 10,
    REVISION_HALF = 2,
    MARK_AT = 6,
    LENGTH_AT = 8,
    LENGTH_SIZE = 2
};

static uint32_t number_at(const uint8_t *bytes, size_t size)
{
    uint32_t number = 0;

    while (size-- > 0)
        number = number << 8 | bytes[size];
    return number;
}

static void put_number(uint8_t *bytes, uint32_t number, size_t size)
{
    size_t i;

    for (i = 0; i < size; i++)
        bytes[i] = (uint8_t)(number >> (8 * i));
}

struct lead lead_read(const uint8_t *record)
{
    struct lead lead;

    lead.sheet = number_at(record + SHEET_AT, SHEET_SIZE);
    lead.revision = number_at(record + REVISION_HIGH_AT, REVISION_HALF) << 16 |
                    number_at(record + REVISION_LOW_AT, REVISION_HALF);
    lead.mark = record[MARK_AT];
    lead.length = number_at(record + LENGTH_AT, LENGTH_SIZE);
    return lead;
}

void lead_write(uint8_t *record, struct lead lead)
{
    memset(record, 0, LAGUNEDO_LEAD_SIZE);
    put_number(record + SHEET_AT, lead.sheet, SHEET_SIZE);
    put_number(record + REVISION_LOW_AT, lead.revision, REVISION_HALF);
    put_number(record + REVISION_HIGH_AT, lead.revision >> 16, REVISION_HALF);
    record[MARK_AT] = lead.mark;
    put_number(record + LENGTH_AT, lead.length, LENGTH_SIZE);
}
