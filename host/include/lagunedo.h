/*
 * Lagunedo: the calls for a job server written in C.
 *
 * This header is the manual. It holds AES-128 and AES-256, one block at a
 * time, as FIPS 197 defines them; EME2-AES, which enciphers whole messages,
 * as source document 000 defines it; the sheet store with its rekeying job,
 * as 01 defines them, with revisions as order 1 of 02 has them; and XTS-AES,
 * as IEEE 1619-2007 defines it, to take over sheets that are under it (order
 * 3 of 02). 000 is "The EME2-AES Transform", 01 "The scope of work and its
 * rules", and 02 "Requested changes after the base".
 *
 * It needs C99 or C++11, or a later version of either, and x86-64 Linux, for
 * which the library is compiled.
 *
 *
 * What holds for every call
 *
 * Byte strings are lent as a pointer followed by their length in bytes. They
 * need no alignment. NULL is allowed if the length is 0, and only then.
 *
 * What a call gives beside the number it returns is written behind pointers
 * to the caller's own uint32_t, uint64_t or struct lagunedo_job, or to 16
 * bytes for a block. These are aligned as their type asks, and never NULL.
 *
 * Memory that a call overwrites must not overlap any other lent to it, not
 * even in one byte; what is only read may.
 *
 * A call returns LAGUNEDO_DONE (0), or one number that says why it refused.
 * Its refusals are tested in the order listed with the call, and the first
 * that applies is the number returned. A refused call leaves every lent byte
 * as it was, those behind pointers included. One number is no refusal:
 * LAGUNEDO_FAULT, with which lagunedo_check names a slot.
 *
 * A call keeps no state and no pointer to lent memory after it returns, and
 * allocates nothing. It takes at most LAGUNEDO_STACK_MOST bytes of stack,
 * whatever the lengths; that is measured by the tests, and not proved.
 *
 * A call may run in several threads at once, provided that no thread writes
 * to a buffer that another is using; threads may share a key. So calls that
 * write to a store run one at a time on that store, with no other call on it
 * meanwhile, and the host sees to that.
 *
 * A server that has lost an answer cannot tell whether its call had run, and
 * may make the same call again. "Made again" below says what it then gets if
 * the first had run and returned LAGUNEDO_DONE. If the first was refused or
 * never ran, nothing had changed, and the call is simply made.
 *
 *
 * What is not offered
 *
 * Neither cipher detects forgery. Deciphering bytes that were changed, or
 * deciphering under a wrong key, with wrong associated data or for another
 * number of a unit, returns 0 and gives other bytes. The store does not
 * detect it either: what lagunedo_check finds is faults of layout.
 *
 * A call is whole. What a store holds after a call that was cut off half way,
 * as by a loss of power, is not said. lagunedo_file.h replaces a store file
 * whole for that reason.
 *
 * The time a call takes is not proved to be independent of its input. No
 * table is read at a place that depends on a key, a message or a text, and no
 * branch depends on one: AES works its substitution out by the field's rule,
 * in gates. That is checked in the machine code, which is searched for the
 * tables and run under valgrind's memcheck with these bytes hidden, and is
 * not proved. The time may show lengths, the leads and free slots of a store,
 * the sheet, revision and place that are asked for, and what is answered.
 *
 * Keys are neither made nor kept here. Working copies of a key on the stack
 * are not claimed to be erased.
 */

#ifndef LAGUNEDO_H
#define LAGUNEDO_H

#include <stddef.h>
#include <stdint.h>

#ifdef __cplusplus
extern "C" {
#endif

/* The version of header, library and programs, and this is its one place. */
#define LAGUNEDO_VERSION "0.1.0"

/*
 * The numbers returned
 *
 * 1 to 14 are those of 01, and none changes its meaning; which revision is the
 * last, for 9, is 02's to say. 14 is never returned, since deciphering keeps
 * the length. 15 to 17 are those of 02's order 3, and only the calls of
 * XTS-AES return them. 0 and 256 are no refusals.
 *
 * LAGUNEDO_REFUSALS and LAGUNEDO_NUMBERS are the one table of their names and
 * meanings: the macro X that they are given gets a row after the other.
 */
#define LAGUNEDO_REFUSALS(X) \
    X(LAGUNEDO_KEY_LENGTH, 1, \
      "a key is not 48 or 64 bytes long (AES alone: 16 or 32)") \
    X(LAGUNEDO_MESSAGE_LENGTH, 2, \
      "a message is below 16 or above 65,536 bytes (AES alone: not 16)") \
    X(LAGUNEDO_DATA_LENGTH, 3, "associated data is above 1,024 bytes") \
    X(LAGUNEDO_STORE_LENGTH, 4, \
      "the store is not a whole number of records, or over 1,024") \
    X(LAGUNEDO_SHEET_ZERO, 5, "sheet number 0 was asked for") \
    X(LAGUNEDO_TEXT_LENGTH, 6, "the text is below 16 or above 2,096 bytes") \
    X(LAGUNEDO_NO_SHEET, 7, "no slot has the sheet number") \
    X(LAGUNEDO_OTHER_REVISION, 8, \
      "the revision named is not the stored one") \
    X(LAGUNEDO_LAST_REVISION, 9, \
      "the stored revision is 4,294,967,295, the last") \
    X(LAGUNEDO_NO_FREE_SLOT, 10, "no slot is free: none has sheet number 0") \
    X(LAGUNEDO_SHEET_PRESENT, 11, "the sheet number is already in a slot") \
    X(LAGUNEDO_SLOT_UNSOUND, 12, "the slot found is unsound") \
    X(LAGUNEDO_BUFFER_LENGTH, 13, "the buffer is shorter than the text") \
    X(LAGUNEDO_LENGTH_CHANGED, 14, \
      "the text length changed in deciphering") \
    X(LAGUNEDO_XTS_KEY_LENGTH, 15, \
      "an XTS key is not 32 or 64 bytes long") \
    X(LAGUNEDO_UNIT_LENGTH, 16, \
      "a unit is below 16 or above 65,536 bytes") \
    X(LAGUNEDO_BLOCK_NOT_ALONE, 17, \
      "the block cannot be read alone: past the end, or tied to odd bytes")

/* These, and the two that are no refusals. */
#define LAGUNEDO_NUMBERS(X) \
    X(LAGUNEDO_DONE, 0, "done") \
    LAGUNEDO_REFUSALS(X) \
    X(LAGUNEDO_FAULT, 256, "a slot of the store is faulty")

#define LAGUNEDO_NUMBER_VALUE(name, number, meaning) name = number,
#define LAGUNEDO_NUMBER_NAME(name, number, meaning) case number: return #name;
#define LAGUNEDO_NUMBER_MEANING(name, number, meaning) \
    case number: return meaning;

enum lagunedo_number { LAGUNEDO_NUMBERS(LAGUNEDO_NUMBER_VALUE) };

/* A number's name, as "LAGUNEDO_NO_SHEET", or "?" if it has none. */
static inline const char *lagunedo_name(uint32_t number)
{
    switch (number) {
    LAGUNEDO_NUMBERS(LAGUNEDO_NUMBER_NAME)
    default: return "?";
    }
}

/* What a number means, in words that follow "refused with 7: ". */
static inline const char *lagunedo_meaning(uint32_t number)
{
    switch (number) {
    LAGUNEDO_NUMBERS(LAGUNEDO_NUMBER_MEANING)
    default: return "a number that this library does not return";
    }
}

/* The sizes, all in bytes but for the number of slots. */
enum lagunedo_size {
    LAGUNEDO_BLOCK_SIZE = 16,
    LAGUNEDO_AES_KEY_128 = 16, /* of AES alone */
    LAGUNEDO_AES_KEY_256 = 32,
    LAGUNEDO_EME2_KEY_128 = 48, /* of EME2-AES and of the store */
    LAGUNEDO_EME2_KEY_256 = 64,
    LAGUNEDO_MESSAGE_LEAST = 16,
    LAGUNEDO_MESSAGE_MOST = 65536,
    LAGUNEDO_DATA_MOST = 1024,
    LAGUNEDO_RECORD_SIZE = 2112,
    LAGUNEDO_LEAD_SIZE = 16,
    LAGUNEDO_TEXT_LEAST = 16,
    LAGUNEDO_TEXT_MOST = 2096,
    LAGUNEDO_SLOT_LIMIT = 1024,
    LAGUNEDO_XTS_KEY_128 = 32, /* of XTS-AES */
    LAGUNEDO_XTS_KEY_256 = 64,
    LAGUNEDO_UNIT_LEAST = 16,
    LAGUNEDO_UNIT_MOST = 65536,
    LAGUNEDO_STACK_MOST = 8192
};

/*
 * Enciphers one block with AES (FIPS 197, section 5.1) in place.
 *
 *   key, key_length      16 bytes for AES-128 or 32 bytes for AES-256; read
 *   block, block_length  16 bytes; read, then overwritten with the result
 *
 * Refusals, in this order:
 *   LAGUNEDO_KEY_LENGTH      key_length is neither 16 nor 32
 *   LAGUNEDO_MESSAGE_LENGTH  block_length is not 16
 *
 * No other memory of the caller is read or written, and the key is never
 * written. Equal blocks under one key give equal results, so a sheet is not
 * to be enciphered block by block with this call: lagunedo_eme2_encipher is
 * for that.
 *
 * Made again: LAGUNEDO_DONE, and the block is enciphered a second time.
 */
uint32_t lagunedo_aes_encipher(const uint8_t *key, size_t key_length,
                               uint8_t *block, size_t block_length);

/*
 * Deciphers one block with AES (FIPS 197, section 5.3) in place: it undoes
 * lagunedo_aes_encipher under the same key, and is undone by it.
 *
 * Parameters, refusals and memory are those of lagunedo_aes_encipher. There
 * is no sign of a wrong key: the block then holds 16 other bytes.
 *
 * Made again: LAGUNEDO_DONE, and the block is deciphered a second time.
 */
uint32_t lagunedo_aes_decipher(const uint8_t *key, size_t key_length,
                               uint8_t *block, size_t block_length);

/*
 * Enciphers a whole message with EME2-AES (source document 000, Table 1) in
 * place.
 *
 *   key, key_length          48 bytes for AES-128 or 64 bytes for AES-256;
 *                            read
 *   ad, ad_length            the associated data, 0 to 1,024 bytes; read
 *   message, message_length  16 to 65,536 bytes, whole blocks or not; read,
 *                            then overwritten with the result, which has the
 *                            same length
 *
 * Refusals, in this order:
 *   LAGUNEDO_KEY_LENGTH      key_length is neither 48 nor 64
 *   LAGUNEDO_MESSAGE_LENGTH  message_length is below 16 or above 65,536
 *   LAGUNEDO_DATA_LENGTH     ad_length is above 1,024
 *
 * No other memory of the caller is read or written, and the key and the
 * associated data are never written. No copy of the message is made: beyond
 * what is lent, the call uses a constant amount of stack at every length.
 *
 * The last 16 key bytes are Key3, the 16 before them Key2, and the rest, 16
 * or 32 bytes, Key1, the key of AES. If IEEE 1619.2 prints these fields in
 * another order, a key from there is to be rearranged first.
 *
 * The associated data is not part of the result, and deciphering needs the
 * same again. Equal messages under one key with equal associated data give
 * equal results, so the associated data should name the sheet, as the
 * 16-byte lead of a stored sheet does by its number and revision.
 *
 * Made again: LAGUNEDO_DONE, and the message is enciphered a second time, of
 * which nothing shows; deciphering it once gives the first result back. A
 * server that has lost the answer begins again from the message in clear.
 */
uint32_t lagunedo_eme2_encipher(const uint8_t *key, size_t key_length,
                                const uint8_t *ad, size_t ad_length,
                                uint8_t *message, size_t message_length);

/*
 * Deciphers a whole message with EME2-AES (source document 000, Table 2) in
 * place: it undoes lagunedo_eme2_encipher under the same key with the same
 * associated data, and is undone by it.
 *
 * Parameters, refusals and memory are those of lagunedo_eme2_encipher. There
 * is no sign of a wrong key, of wrong associated data or of changed bytes:
 * the call returns LAGUNEDO_DONE, and the message then holds other bytes.
 *
 * Made again: LAGUNEDO_DONE, and the message is deciphered a second time, of
 * which nothing shows; enciphering it once gives the first result back.
 */
uint32_t lagunedo_eme2_decipher(const uint8_t *key, size_t key_length,
                                const uint8_t *ad, size_t ad_length,
                                uint8_t *message, size_t message_length);

/*
 * The sheet store
 *
 * A store is a lent buffer of 0 to 1,024 records of 2,112 bytes, one a slot,
 * with nothing before, between or after them. Slots are counted from 0. All
 * zeros is a store whose slots are free, and a new store is made so. Numbers
 * in a record are little-endian.
 *
 *   bytes    field
 *   0-3      sheet number; 0 means the slot is free
 *   4-5      low half of the revision
 *   6        mark: 0 clear, 1 old key, 2 new key
 *   7        0
 *   8-9      text length, 16 to 2,096
 *   10-11    high half of the revision
 *   12-15    0
 *   16-2111  text, zeros after its length
 *
 * The revision is its low half plus 65,536 times its high half, 1 to
 * 4,294,967,295. What was sound to libraries that knew the low half alone, and
 * asked for 0 in bytes 10 to 15, is sound and means what it meant.
 *
 * Bytes 0 to 15 are the lead. Under mark 1 or 2 the stored text is enciphered
 * with EME2-AES under that key with the whole lead, as stored, for associated
 * data. In clear it is the text itself. A free slot is sound if all 2,112
 * bytes are 0. A used slot is sound if every field is as tabled. A store is
 * sound if each slot is, and no sheet number other than 0 stands twice.
 *
 *
 * The two keys
 *
 * Reading, adding, revising and stepping take the old key and the new key,
 * and test the length of both, whichever of them the slot needs. Each is 48
 * or 64 bytes, and the two may differ in length. A text is deciphered under
 * the key that its mark names. A text is written under the new key alone.
 * If there is only one key, it may be lent as both.
 *
 * A mark says old key or new key, and not which key that is. Adding, revising
 * and stepping write mark 2, and no call writes mark 1: once lagunedo_check
 * counts 0 clear and 0 under the old key, the changeover is over, and the key
 * that was new is the only one in use. In the next changeover it is the old
 * one, so every sheet has to be marked so first: deciphered under it, the
 * mark made 1, and enciphered under the same key with the new lead. A job
 * that is run with a third key and without that finds every slot
 * LAGUNEDO_STEP_ALREADY, converts none, and returns LAGUNEDO_DONE; whoever
 * then destroys the key before has lost every text.
 *
 * That marking is no call of this library, since made again it would be done
 * twice, of which nothing shows. The desk has it as begin: it names the store
 * that was seen, by a fingerprint, is refused on any other, and keeps the file
 * that it replaced. From then on every call takes both keys, until the job is
 * done.
 *
 * Nothing shows that a key is the wrong one. Reading then gives other bytes,
 * and a step that converts a text stores other bytes in its place. So the
 * desk's rekey keeps the file that it replaced too.
 *
 *
 * A store that is not sound
 *
 * The calls below keep a sound store sound. Bytes changed by others may not,
 * and then the calls do as follows. Those by sheet number look at the slot
 * they find and at no other's soundness.
 *
 * A used slot that is unsound: lagunedo_read and lagunedo_revise refuse it
 * with LAGUNEDO_SLOT_UNSOUND, and lagunedo_add refuses its sheet number with
 * LAGUNEDO_SHEET_PRESENT. A step calls it damaged, whatever its mark, and
 * keeps it. lagunedo_remove zeros it, and the sheet can then be added anew.
 *
 * Sheet number 0 with any other byte set: lagunedo_check faults the slot, but
 * lagunedo_add takes it for a free one and writes all its bytes. A step calls
 * it free and keeps it.
 *
 * A sheet number that stands in several slots: lagunedo_check faults each but
 * the lowest. The calls by sheet number take the lowest, and reach the next
 * only once that is removed. A step goes by its place and converts each.
 */
enum lagunedo_mark {
    LAGUNEDO_MARK_CLEAR = 0,
    LAGUNEDO_MARK_OLD_KEY = 1,
    LAGUNEDO_MARK_NEW_KEY = 2
};

/*
 * Looks for the lowest faulty slot, or else counts the slots. A slot is
 * faulty if it is unsound or repeats a lower slot's sheet number other than 0.
 *
 *   store, store_length      0 to 1,024 records of 2,112 bytes; read
 *   fault                    the lowest faulty slot; written only with
 *                            LAGUNEDO_FAULT
 *   used, free               how many slots are used, and how many free
 *   clear, old_key, new_key  how many of the used have mark 0, 1 and 2
 *                            (these five are written only with
 *                            LAGUNEDO_DONE)
 *
 * Refusal:
 *   LAGUNEDO_STORE_LENGTH    store_length is not a multiple of 2,112, or is
 *                            above 1,024 times that
 *
 * Other answers:
 *   LAGUNEDO_FAULT           a slot is faulty: *fault is the lowest such, and
 *                            the five counts are kept
 *   LAGUNEDO_DONE            the store is sound: the five counts are written,
 *                            and *fault is kept
 *
 * The used and the free add up to the number of slots, and the three marks to
 * the used. An empty store is sound and gives five zeros. The store is never
 * written.
 *
 * What is found is faults of layout, no more. The call takes no key and
 * deciphers nothing, so it does not see that a text was changed, nor that a
 * lead was changed to another that is as tabled, nor that an older store was
 * put in the place of this one.
 *
 * Made again: the same, as long as the store is.
 */
uint32_t lagunedo_check(const uint8_t *store, size_t store_length,
                        uint32_t *fault, uint32_t *used, uint32_t *free,
                        uint32_t *clear, uint32_t *old_key,
                        uint32_t *new_key);

/*
 * Reads a sheet: its text in clear, its length and its revision.
 *
 *   old_key, old_key_length  48 or 64 bytes; read
 *   new_key, new_key_length  48 or 64 bytes; read
 *   store, store_length      0 to 1,024 records of 2,112 bytes; read
 *   sheet                    the sheet number, not 0
 *   text, text_length        a buffer at least as long as the sheet's text;
 *                            the text is written to its front, and the rest
 *                            of it is kept
 *   length                   the text's length; written
 *   revision                 the stored revision; written
 *
 * Refusals, in this order:
 *   LAGUNEDO_KEY_LENGTH      old_key_length or new_key_length is neither 48
 *                            nor 64
 *   LAGUNEDO_STORE_LENGTH    store_length is not a multiple of 2,112, or is
 *                            above 1,024 times that
 *   LAGUNEDO_SHEET_ZERO      sheet is 0
 *   LAGUNEDO_NO_SHEET        no slot has the sheet number
 *   LAGUNEDO_SLOT_UNSOUND    the lowest slot that has it is unsound
 *   LAGUNEDO_BUFFER_LENGTH   text_length is below the stored text length
 *
 * LAGUNEDO_LENGTH_CHANGED would come last and does not occur.
 *
 * A buffer of 2,096 bytes is long enough for every sheet. The store is never
 * written, and no more of the buffer than the text's length.
 *
 * Made again: the same, as long as the store is.
 */
uint32_t lagunedo_read(const uint8_t *old_key, size_t old_key_length,
                       const uint8_t *new_key, size_t new_key_length,
                       const uint8_t *store, size_t store_length,
                       uint32_t sheet, uint8_t *text, size_t text_length,
                       uint32_t *length, uint32_t *revision);

/*
 * Adds a sheet that the store does not have yet, at revision 1, enciphered
 * under the new key.
 *
 *   old_key, old_key_length  48 or 64 bytes; only the length matters
 *   new_key, new_key_length  48 or 64 bytes; read
 *   store, store_length      0 to 1,024 records of 2,112 bytes; one slot is
 *                            written
 *   sheet                    the sheet number, not 0
 *   text, text_length        the text, 16 to 2,096 bytes; read
 *   revision                 the revision now stored, 1; written
 *
 * Refusals, in this order:
 *   LAGUNEDO_KEY_LENGTH      old_key_length or new_key_length is neither 48
 *                            nor 64
 *   LAGUNEDO_STORE_LENGTH    store_length is not a multiple of 2,112, or is
 *                            above 1,024 times that
 *   LAGUNEDO_SHEET_ZERO      sheet is 0
 *   LAGUNEDO_TEXT_LENGTH     text_length is below 16 or above 2,096
 *   LAGUNEDO_SHEET_PRESENT   a slot has the sheet number
 *   LAGUNEDO_NO_FREE_SLOT    no slot has sheet number 0
 *
 * The slot written is the lowest whose sheet number is 0, so one freed by a
 * removal is used again. All its bytes are written: the lead with mark 2, the
 * enciphered text, zeros after it. Every other slot is kept.
 *
 * Made again: LAGUNEDO_SHEET_PRESENT, as long as the sheet is there. It is
 * the answer too if somebody else added the sheet; reading the sheet tells
 * which. If the sheet was removed since, it is added once more.
 */
uint32_t lagunedo_add(const uint8_t *old_key, size_t old_key_length,
                      const uint8_t *new_key, size_t new_key_length,
                      uint8_t *store, size_t store_length, uint32_t sheet,
                      const uint8_t *text, size_t text_length,
                      uint32_t *revision);

/*
 * Replaces the text of a sheet whole, if the sheet still is at the revision
 * that the operator saw.
 *
 *   old_key, old_key_length  48 or 64 bytes; only the length matters
 *   new_key, new_key_length  48 or 64 bytes; read
 *   store, store_length      0 to 1,024 records of 2,112 bytes; one slot is
 *                            written
 *   sheet                    the sheet number, not 0
 *   seen                     the revision that the operator saw; any number
 *                            may be given, it is compared whole, and 0 is
 *                            never the stored one
 *   text, text_length        the new text, 16 to 2,096 bytes; read
 *   revision                 the revision now stored, seen + 1; written
 *
 * Refusals, in this order:
 *   LAGUNEDO_KEY_LENGTH      old_key_length or new_key_length is neither 48
 *                            nor 64
 *   LAGUNEDO_STORE_LENGTH    store_length is not a multiple of 2,112, or is
 *                            above 1,024 times that
 *   LAGUNEDO_SHEET_ZERO      sheet is 0
 *   LAGUNEDO_TEXT_LENGTH     text_length is below 16 or above 2,096
 *   LAGUNEDO_NO_SHEET        no slot has the sheet number
 *   LAGUNEDO_SLOT_UNSOUND    the lowest slot that has it is unsound
 *   LAGUNEDO_OTHER_REVISION  seen is not the stored revision
 *   LAGUNEDO_LAST_REVISION   the stored revision is 4,294,967,295
 *
 * The slot gets a revision one higher, mark 2 whatever its mark was, the new
 * text enciphered under the new key, and zeros after it. Every other slot is
 * kept.
 *
 * Made again: LAGUNEDO_OTHER_REVISION, as long as the sheet is there and its
 * slot sound, since the stored revision is now above seen and never falls. It
 * is the answer too if somebody else revised the sheet first; reading the
 * sheet tells which. Once the sheet was removed, it is LAGUNEDO_NO_SHEET.
 *
 * A removal ends this protection. A sheet added anew under its old number
 * starts at revision 1 again, so a late revision is accepted if it names the
 * revision that the new sheet has by then. A server for which that matters
 * gives a removed sheet's number to no other.
 */
uint32_t lagunedo_revise(const uint8_t *old_key, size_t old_key_length,
                         const uint8_t *new_key, size_t new_key_length,
                         uint8_t *store, size_t store_length, uint32_t sheet,
                         uint32_t seen, const uint8_t *text,
                         size_t text_length, uint32_t *revision);

/*
 * Removes a sheet: zeros all bytes of its slot, sound or not.
 *
 *   store, store_length      0 to 1,024 records of 2,112 bytes; one slot is
 *                            written
 *   sheet                    the sheet number, not 0
 *
 * Refusals, in this order:
 *   LAGUNEDO_STORE_LENGTH    store_length is not a multiple of 2,112, or is
 *                            above 1,024 times that
 *   LAGUNEDO_SHEET_ZERO      sheet is 0
 *   LAGUNEDO_NO_SHEET        no slot has the sheet number
 *
 * No key is needed, and no revision is named. Every other slot is kept.
 *
 * Made again: LAGUNEDO_NO_SHEET. But if the number was added anew since, the
 * new sheet is removed, and if the number stood in several slots, the next of
 * them is zeroed.
 */
uint32_t lagunedo_remove(uint8_t *store, size_t store_length, uint32_t sheet);

/*
 * The rekeying job
 *
 * The job brings every sheet under the new key, one slot a step. It is no
 * more than a place, the slot that the next step works on. A new copy of the
 * job starts at place 0, and steps follow until one answers
 * LAGUNEDO_STEP_DONE:
 *
 *   struct lagunedo_job job = { 0 };
 *   uint32_t outcome;
 *
 *   do
 *       number = lagunedo_job_step(&job, ..., &outcome);
 *   while (number == LAGUNEDO_DONE && outcome != LAGUNEDO_STEP_DONE);
 *
 * Other calls may run between two steps, and several copies of the job, each
 * from place 0 with the same two keys, may be interleaved: whole calls, one
 * at a time on one store. A slot that one copy converted is already so for
 * the others. Adding and revising write mark 2, so no slot behind a place
 * falls back.
 *
 * When one copy is done, each slot is free, or has mark 2, or is damaged, as
 * long as nothing but these calls changed the store meanwhile. The damaged
 * ones are as they were found, perhaps in clear or under the old key. If
 * lagunedo_check then returns LAGUNEDO_DONE, there are none, and it counts 0
 * clear and 0 under the old key.
 *
 * The outcomes of a step, in the order in which they are tested:
 *
 * LAGUNEDO_STEP_DONE       the place is at or past the number of slots:
 *                          nothing changes, and the place stays, however
 *                          large it is
 * LAGUNEDO_STEP_FREE       the slot's sheet number is 0; the slot is kept
 * LAGUNEDO_STEP_DAMAGED    the slot is used and unsound, whatever its mark;
 *                          it is kept
 * LAGUNEDO_STEP_ALREADY    the slot has mark 2; it is kept
 * LAGUNEDO_STEP_CONVERTED  the slot had mark 0 or 1: its text was read, the
 *                          mark is now 2, and the text is enciphered under
 *                          the new key with the new lead; sheet number,
 *                          revision and length stay
 */
enum lagunedo_outcome {
    LAGUNEDO_STEP_DONE = 0,
    LAGUNEDO_STEP_FREE = 1,
    LAGUNEDO_STEP_DAMAGED = 2,
    LAGUNEDO_STEP_ALREADY = 3,
    LAGUNEDO_STEP_CONVERTED = 4
};

/*
 * One step of the rekeying job, on the slot at the job's place.
 *
 *   old_key, old_key_length  48 or 64 bytes; read
 *   new_key, new_key_length  48 or 64 bytes; read
 *   store, store_length      0 to 1,024 records of 2,112 bytes; the slot at
 *                            the place is read, and written if converted
 *   place                    the job's place; read, then moved on by one
 *                            unless the outcome is LAGUNEDO_STEP_DONE
 *   outcome                  the outcome; written
 *
 * Refusals, in this order:
 *   LAGUNEDO_KEY_LENGTH      old_key_length or new_key_length is neither 48
 *                            nor 64
 *   LAGUNEDO_STORE_LENGTH    store_length is not a multiple of 2,112, or is
 *                            above 1,024 times that
 *
 * Every byte of the other slots is kept. An empty store is done at once.
 *
 * Made again: the place has moved on, so the next slot is worked on, and no
 * slot is left out: the one before it had its step. A place that was put back
 * or lost harms nothing either, since a slot that was converted is then
 * LAGUNEDO_STEP_ALREADY and kept.
 */
uint32_t lagunedo_step(const uint8_t *old_key, size_t old_key_length,
                       const uint8_t *new_key, size_t new_key_length,
                       uint8_t *store, size_t store_length, uint64_t *place,
                       uint32_t *outcome);

/* A copy of the rekeying job. A new one is { 0 }. */
struct lagunedo_job {
    uint64_t place;
};

/*
 * One step of the rekeying job: lagunedo_step on job->place.
 *
 *   job                      the copy of the job; its place is read, then
 *                            moved on by one unless the outcome is
 *                            LAGUNEDO_STEP_DONE
 *
 * The other parameters, the refusals and the outcomes are those of
 * lagunedo_step.
 *
 * Made again: as lagunedo_step, on the job's place.
 */
uint32_t lagunedo_job_step(struct lagunedo_job *job, const uint8_t *old_key,
                           size_t old_key_length, const uint8_t *new_key,
                           size_t new_key_length, uint8_t *store,
                           size_t store_length, uint32_t *outcome);

/*
 * Taking over sheets under XTS-AES
 *
 * New plants come with sheets under XTS-AES, as disks have it. The calls below
 * are there to take these over, and to make such units where one is needed,
 * as for a test. Nothing that the store keeps is under XTS-AES.
 *
 * A unit is 16 to 65,536 bytes and has a number of 64 bits, the standard's
 * data unit number. The number's 8 bytes, the low one first, and 8 zeros are
 * the block from which the unit's tweak is made. A key is exactly 32 bytes for
 * AES-128 or 64 bytes for AES-256: its first half enciphers the blocks, and
 * its second half the tweak. Equal halves are taken, as the standard's first
 * vector has them; a good key does not have them.
 *
 * A unit is cut into blocks of 16 bytes, counted from 0. What is left at its
 * end, 1 to 15 odd bytes, steals from the last full block (ciphertext
 * stealing): the two are enciphered together, and a unit keeps its length.
 *
 * XTS-AES gives less than EME2-AES. Each block is enciphered by itself, under
 * its own tweak: who sees two versions of a unit sees which blocks differ,
 * and who can write to it can exchange blocks between the two. EME2-AES mixes
 * the whole message into every block. Neither detects forgery.
 */

/*
 * Enciphers a unit with XTS-AES (IEEE 1619-2007, 5.3.2) in place.
 *
 *   key, key_length          32 bytes for AES-128 or 64 bytes for AES-256;
 *                            read
 *   number                   the unit's number; any
 *   unit, unit_length        16 to 65,536 bytes, whole blocks or not; read,
 *                            then overwritten with the result, which has the
 *                            same length
 *
 * Refusals, in this order:
 *   LAGUNEDO_XTS_KEY_LENGTH  key_length is neither 32 nor 64
 *   LAGUNEDO_UNIT_LENGTH     unit_length is below 16 or above 65,536
 *
 * No other memory of the caller is read or written, and the key is never
 * written.
 *
 * Made again: LAGUNEDO_DONE, and the unit is enciphered a second time, of
 * which nothing shows; deciphering it once gives the first result back.
 */
uint32_t lagunedo_xts_encipher(const uint8_t *key, size_t key_length,
                               uint64_t number, uint8_t *unit,
                               size_t unit_length);

/*
 * Deciphers a unit with XTS-AES (IEEE 1619-2007, 5.4.2) in place: it undoes
 * lagunedo_xts_encipher under the same key and number, and is undone by it.
 *
 * Parameters, refusals and memory are those of lagunedo_xts_encipher. There
 * is no sign of a wrong key, of another unit's number or of changed bytes:
 * the call returns LAGUNEDO_DONE, and the unit then holds other bytes.
 *
 * Made again: LAGUNEDO_DONE, and the unit is deciphered a second time, of
 * which nothing shows; enciphering it once gives the first result back.
 */
uint32_t lagunedo_xts_decipher(const uint8_t *key, size_t key_length,
                               uint64_t number, uint8_t *unit,
                               size_t unit_length);

/*
 * Reads one block of an enciphered unit: the 16 bytes that stand at its place
 * in the deciphered unit. The unit is kept.
 *
 *   key, key_length          32 or 64 bytes; read
 *   number                   the unit's number; any
 *   unit, unit_length        16 to 65,536 bytes, enciphered; block k of it is
 *                            read, and nothing else
 *   k                        the block, counted from 0; any number may be
 *                            given
 *   block                    16 bytes; written
 *
 * Refusals, in this order:
 *   LAGUNEDO_XTS_KEY_LENGTH   key_length is neither 32 nor 64
 *   LAGUNEDO_UNIT_LENGTH      unit_length is below 16 or above 65,536
 *   LAGUNEDO_BLOCK_NOT_ALONE  with f full blocks in the unit, k is not below
 *                             f if unit_length is a multiple of 16, or else
 *                             not below f - 1
 *
 * The blocks before it are not deciphered: its mask is found by halving k, so
 * that a late block takes little longer than an early one. Of a unit with odd
 * bytes at its end, these and the last full block were enciphered together
 * and cannot be read so; lagunedo_xts_decipher gives them.
 *
 * Made again: the same, as long as the unit is.
 */
uint32_t lagunedo_xts_block(const uint8_t *key, size_t key_length,
                            uint64_t number, const uint8_t *unit,
                            size_t unit_length, uint64_t k,
                            uint8_t block[LAGUNEDO_BLOCK_SIZE]);

/*
 * Takes a sheet over: adds what a unit deciphers to as a sheet that the store
 * does not have yet, as lagunedo_add adds a text. The unit is kept, refused or
 * not.
 *
 *   xts_key, xts_key_length  32 or 64 bytes; read
 *   number                   the unit's number; any
 *   unit, unit_length        an enciphered unit; its text, of the same
 *                            length, is to have 16 to 2,096 bytes; read
 *   old_key, old_key_length  48 or 64 bytes; only the length matters
 *   new_key, new_key_length  48 or 64 bytes; read
 *   store, store_length      0 to 1,024 records of 2,112 bytes; one slot is
 *                            written
 *   sheet                    the sheet number, not 0
 *   revision                 the revision now stored, 1; written
 *
 * Refusals, in this order:
 *   LAGUNEDO_XTS_KEY_LENGTH  xts_key_length is neither 32 nor 64
 *   LAGUNEDO_UNIT_LENGTH     unit_length is below 16 or above 65,536
 *   LAGUNEDO_KEY_LENGTH      old_key_length or new_key_length is neither 48
 *                            nor 64
 *   LAGUNEDO_STORE_LENGTH    store_length is not a multiple of 2,112, or is
 *                            above 1,024 times that
 *   LAGUNEDO_SHEET_ZERO      sheet is 0
 *   LAGUNEDO_TEXT_LENGTH     unit_length is above 2,096
 *   LAGUNEDO_SHEET_PRESENT   a slot has the sheet number
 *   LAGUNEDO_NO_FREE_SLOT    no slot has sheet number 0
 *
 * The store is then as lagunedo_add leaves it: the text, enciphered under the
 * new key, is in the lowest slot whose sheet number was 0. Nothing shows that
 * the XTS key or the number is the wrong one: other bytes are then stored. So
 * the unit is to be kept until the sheet was read.
 *
 * Made again: LAGUNEDO_SHEET_PRESENT, as long as the sheet is there. It is
 * the answer too if somebody else added the sheet; reading the sheet tells
 * which. If the sheet was removed since, it is added once more.
 */
uint32_t lagunedo_add_xts(const uint8_t *xts_key, size_t xts_key_length,
                          uint64_t number, const uint8_t *unit,
                          size_t unit_length, const uint8_t *old_key,
                          size_t old_key_length, const uint8_t *new_key,
                          size_t new_key_length, uint8_t *store,
                          size_t store_length, uint32_t sheet,
                          uint32_t *revision);

/*
 * NULL with length 0
 *
 * The library's own slices are never null. The macros below let the calls
 * above take NULL with length 0 all the same, by lending the address of an
 * unused byte in its place. They are function-like, so the plain name and
 * the name in parentheses, as in (lagunedo_aes_encipher)(..), still mean the
 * library's function, which must not be given NULL at all. NULL with any
 * other length is passed on as it is: a fault at once is better than an
 * unused byte read as a key.
 */
static inline const uint8_t *lagunedo_lent_in(const uint8_t *bytes,
                                              size_t length)
{
    static const uint8_t unused = 0;

    return bytes == NULL && length == 0 ? &unused : bytes;
}

static inline uint8_t *lagunedo_lent_out(uint8_t *bytes, size_t length)
{
    static uint8_t unused = 0;

    return bytes == NULL && length == 0 ? &unused : bytes;
}

static inline uint32_t lagunedo_lent_aes_encipher(const uint8_t *key,
                                                  size_t key_length,
                                                  uint8_t *block,
                                                  size_t block_length)
{
    return lagunedo_aes_encipher(
        lagunedo_lent_in(key, key_length), key_length,
        lagunedo_lent_out(block, block_length), block_length);
}

static inline uint32_t lagunedo_lent_aes_decipher(const uint8_t *key,
                                                  size_t key_length,
                                                  uint8_t *block,
                                                  size_t block_length)
{
    return lagunedo_aes_decipher(
        lagunedo_lent_in(key, key_length), key_length,
        lagunedo_lent_out(block, block_length), block_length);
}

static inline uint32_t lagunedo_lent_eme2_encipher(const uint8_t *key,
                                                   size_t key_length,
                                                   const uint8_t *ad,
                                                   size_t ad_length,
                                                   uint8_t *message,
                                                   size_t message_length)
{
    return lagunedo_eme2_encipher(
        lagunedo_lent_in(key, key_length), key_length,
        lagunedo_lent_in(ad, ad_length), ad_length,
        lagunedo_lent_out(message, message_length), message_length);
}

static inline uint32_t lagunedo_lent_eme2_decipher(const uint8_t *key,
                                                   size_t key_length,
                                                   const uint8_t *ad,
                                                   size_t ad_length,
                                                   uint8_t *message,
                                                   size_t message_length)
{
    return lagunedo_eme2_decipher(
        lagunedo_lent_in(key, key_length), key_length,
        lagunedo_lent_in(ad, ad_length), ad_length,
        lagunedo_lent_out(message, message_length), message_length);
}

static inline uint32_t lagunedo_lent_check(const uint8_t *store,
                                           size_t store_length,
                                           uint32_t *fault, uint32_t *used,
                                           uint32_t *free, uint32_t *clear,
                                           uint32_t *old_key,
                                           uint32_t *new_key)
{
    return lagunedo_check(lagunedo_lent_in(store, store_length), store_length,
                          fault, used, free, clear, old_key, new_key);
}

static inline uint32_t lagunedo_lent_read(
    const uint8_t *old_key, size_t old_key_length, const uint8_t *new_key,
    size_t new_key_length, const uint8_t *store, size_t store_length,
    uint32_t sheet, uint8_t *text, size_t text_length, uint32_t *length,
    uint32_t *revision)
{
    return lagunedo_read(
        lagunedo_lent_in(old_key, old_key_length), old_key_length,
        lagunedo_lent_in(new_key, new_key_length), new_key_length,
        lagunedo_lent_in(store, store_length), store_length, sheet,
        lagunedo_lent_out(text, text_length), text_length, length, revision);
}

static inline uint32_t lagunedo_lent_add(
    const uint8_t *old_key, size_t old_key_length, const uint8_t *new_key,
    size_t new_key_length, uint8_t *store, size_t store_length,
    uint32_t sheet, const uint8_t *text, size_t text_length,
    uint32_t *revision)
{
    return lagunedo_add(
        lagunedo_lent_in(old_key, old_key_length), old_key_length,
        lagunedo_lent_in(new_key, new_key_length), new_key_length,
        lagunedo_lent_out(store, store_length), store_length, sheet,
        lagunedo_lent_in(text, text_length), text_length, revision);
}

static inline uint32_t lagunedo_lent_revise(
    const uint8_t *old_key, size_t old_key_length, const uint8_t *new_key,
    size_t new_key_length, uint8_t *store, size_t store_length,
    uint32_t sheet, uint32_t seen, const uint8_t *text, size_t text_length,
    uint32_t *revision)
{
    return lagunedo_revise(
        lagunedo_lent_in(old_key, old_key_length), old_key_length,
        lagunedo_lent_in(new_key, new_key_length), new_key_length,
        lagunedo_lent_out(store, store_length), store_length, sheet, seen,
        lagunedo_lent_in(text, text_length), text_length, revision);
}

static inline uint32_t lagunedo_lent_remove(uint8_t *store,
                                            size_t store_length,
                                            uint32_t sheet)
{
    return lagunedo_remove(lagunedo_lent_out(store, store_length),
                           store_length, sheet);
}

static inline uint32_t lagunedo_lent_step(
    const uint8_t *old_key, size_t old_key_length, const uint8_t *new_key,
    size_t new_key_length, uint8_t *store, size_t store_length,
    uint64_t *place, uint32_t *outcome)
{
    return lagunedo_step(
        lagunedo_lent_in(old_key, old_key_length), old_key_length,
        lagunedo_lent_in(new_key, new_key_length), new_key_length,
        lagunedo_lent_out(store, store_length), store_length, place, outcome);
}

static inline uint32_t lagunedo_lent_job_step(
    struct lagunedo_job *job, const uint8_t *old_key, size_t old_key_length,
    const uint8_t *new_key, size_t new_key_length, uint8_t *store,
    size_t store_length, uint32_t *outcome)
{
    return lagunedo_job_step(
        job, lagunedo_lent_in(old_key, old_key_length), old_key_length,
        lagunedo_lent_in(new_key, new_key_length), new_key_length,
        lagunedo_lent_out(store, store_length), store_length, outcome);
}

static inline uint32_t lagunedo_lent_xts_encipher(const uint8_t *key,
                                                  size_t key_length,
                                                  uint64_t number,
                                                  uint8_t *unit,
                                                  size_t unit_length)
{
    return lagunedo_xts_encipher(
        lagunedo_lent_in(key, key_length), key_length, number,
        lagunedo_lent_out(unit, unit_length), unit_length);
}

static inline uint32_t lagunedo_lent_xts_decipher(const uint8_t *key,
                                                  size_t key_length,
                                                  uint64_t number,
                                                  uint8_t *unit,
                                                  size_t unit_length)
{
    return lagunedo_xts_decipher(
        lagunedo_lent_in(key, key_length), key_length, number,
        lagunedo_lent_out(unit, unit_length), unit_length);
}

static inline uint32_t lagunedo_lent_xts_block(
    const uint8_t *key, size_t key_length, uint64_t number,
    const uint8_t *unit, size_t unit_length, uint64_t k,
    uint8_t block[LAGUNEDO_BLOCK_SIZE])
{
    return lagunedo_xts_block(
        lagunedo_lent_in(key, key_length), key_length, number,
        lagunedo_lent_in(unit, unit_length), unit_length, k, block);
}

static inline uint32_t lagunedo_lent_add_xts(
    const uint8_t *xts_key, size_t xts_key_length, uint64_t number,
    const uint8_t *unit, size_t unit_length, const uint8_t *old_key,
    size_t old_key_length, const uint8_t *new_key, size_t new_key_length,
    uint8_t *store, size_t store_length, uint32_t sheet, uint32_t *revision)
{
    return lagunedo_add_xts(
        lagunedo_lent_in(xts_key, xts_key_length), xts_key_length, number,
        lagunedo_lent_in(unit, unit_length), unit_length,
        lagunedo_lent_in(old_key, old_key_length), old_key_length,
        lagunedo_lent_in(new_key, new_key_length), new_key_length,
        lagunedo_lent_out(store, store_length), store_length, sheet,
        revision);
}

/* Variadic, so that an argument may be a compound literal with commas. */
#define lagunedo_aes_encipher(...) lagunedo_lent_aes_encipher(__VA_ARGS__)
#define lagunedo_aes_decipher(...) lagunedo_lent_aes_decipher(__VA_ARGS__)
#define lagunedo_eme2_encipher(...) lagunedo_lent_eme2_encipher(__VA_ARGS__)
#define lagunedo_eme2_decipher(...) lagunedo_lent_eme2_decipher(__VA_ARGS__)
#define lagunedo_check(...) lagunedo_lent_check(__VA_ARGS__)
#define lagunedo_read(...) lagunedo_lent_read(__VA_ARGS__)
#define lagunedo_add(...) lagunedo_lent_add(__VA_ARGS__)
#define lagunedo_revise(...) lagunedo_lent_revise(__VA_ARGS__)
#define lagunedo_remove(...) lagunedo_lent_remove(__VA_ARGS__)
#define lagunedo_step(...) lagunedo_lent_step(__VA_ARGS__)
#define lagunedo_job_step(...) lagunedo_lent_job_step(__VA_ARGS__)
#define lagunedo_xts_encipher(...) lagunedo_lent_xts_encipher(__VA_ARGS__)
#define lagunedo_xts_decipher(...) lagunedo_lent_xts_decipher(__VA_ARGS__)
#define lagunedo_xts_block(...) lagunedo_lent_xts_block(__VA_ARGS__)
#define lagunedo_add_xts(...) lagunedo_lent_add_xts(__VA_ARGS__)

#ifdef __cplusplus
}
#endif

#endif
