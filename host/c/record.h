/*
 * The lead of a record, as lagunedo.h tables it. Only record.c knows at which
 * byte a field stands.
 */

#ifndef RECORD_H
#define RECORD_H

#include <stdint.h>

struct lead {
    uint32_t sheet, revision;
    uint8_t mark;
    uint32_t length;
};

/*
 * Bytes of a lead that are no field and have to be 0: one between the mark and
 * the length, and those from LEAD_END on.
 */
enum { LEAD_GAP = 7, LEAD_END = 12 };

struct lead lead_read(const uint8_t *record);

/* Writes all 16 bytes of the lead. */
void lead_write(uint8_t *record, struct lead lead);

#endif
