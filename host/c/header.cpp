// Compiled and never run: the header is usable from C++, by its macros, by
// the library's own functions, and with NULL.

#include "lagunedo.h"

uint32_t header_from_cpp(const uint8_t *key, uint8_t *block)
{
    uint32_t (*own)(const uint8_t *, size_t, uint8_t *, size_t) =
        lagunedo_aes_encipher;

    if (own(key, 16, block, 16) != LAGUNEDO_DONE)
        return LAGUNEDO_KEY_LENGTH;
    if ((lagunedo_aes_decipher)(key, 16, block, 16) != LAGUNEDO_DONE)
        return LAGUNEDO_KEY_LENGTH;
    if (::lagunedo_aes_encipher(key, 16, nullptr, 0) != LAGUNEDO_MESSAGE_LENGTH)
        return LAGUNEDO_MESSAGE_LENGTH;
    return lagunedo_aes_decipher(nullptr, 0, block, 16);
}

// The names and the sizes.
const char *words_from_cpp(uint32_t number)
{
    static_assert(LAGUNEDO_EME2_KEY_128 < LAGUNEDO_EME2_KEY_256,
                  "sizes are constants");
    return number == LAGUNEDO_DONE ? LAGUNEDO_VERSION
           : number == LAGUNEDO_FAULT ? lagunedo_name(number)
                                      : lagunedo_meaning(number);
}

uint32_t eme2_from_cpp(const uint8_t *key, const uint8_t *lead,
                       uint8_t *message)
{
    uint32_t (*own)(const uint8_t *, size_t, const uint8_t *, size_t,
                    uint8_t *, size_t) = lagunedo_eme2_encipher;

    if (own(key, 64, lead, 16, message, 16) != LAGUNEDO_DONE)
        return LAGUNEDO_KEY_LENGTH;
    if ((lagunedo_eme2_decipher)(key, 64, lead, 16, message, 16) !=
        LAGUNEDO_DONE)
        return LAGUNEDO_KEY_LENGTH;
    if (::lagunedo_eme2_encipher(key, 64, lead, 1025, message, 16) !=
        LAGUNEDO_DATA_LENGTH)
        return LAGUNEDO_DATA_LENGTH;
    if (lagunedo_eme2_encipher(key, 48, nullptr, 0, message, 16) !=
        LAGUNEDO_DONE)
        return LAGUNEDO_DATA_LENGTH;
    return lagunedo_eme2_decipher(nullptr, 0, nullptr, 0, nullptr, 0);
}

uint32_t store_from_cpp(const uint8_t *key, uint8_t *store, size_t length,
                        uint8_t *text)
{
    uint32_t (*own_check)(const uint8_t *, size_t, uint32_t *, uint32_t *,
                          uint32_t *, uint32_t *, uint32_t *, uint32_t *) =
        lagunedo_check;
    uint32_t (*own_remove)(uint8_t *, size_t, uint32_t) = lagunedo_remove;
    uint32_t fault, used, free, clear, old_key, new_key, size, revision;

    if (own_check(store, length, &fault, &used, &free, &clear, &old_key,
                  &new_key) == LAGUNEDO_FAULT)
        return fault;
    if (::lagunedo_check(nullptr, 0, &fault, &used, &free, &clear, &old_key,
                         &new_key) != LAGUNEDO_DONE)
        return LAGUNEDO_STORE_LENGTH;
    if ((lagunedo_add)(key, 48, key, 48, store, length, 305, text,
                       LAGUNEDO_TEXT_LEAST, &revision) != LAGUNEDO_DONE)
        return LAGUNEDO_SHEET_PRESENT;
    if (lagunedo_add(key, 48, key, 48, store, length, 306, nullptr, 0,
                     &revision) != LAGUNEDO_TEXT_LENGTH)
        return LAGUNEDO_TEXT_LENGTH;
    if (lagunedo_revise(key, 48, key, 48, store, length, 305, revision, text,
                        LAGUNEDO_TEXT_LEAST, &revision) != LAGUNEDO_DONE)
        return LAGUNEDO_OTHER_REVISION;
    if (lagunedo_read(key, 48, key, 48, store, length, 305, nullptr, 0, &size,
                      &revision) != LAGUNEDO_BUFFER_LENGTH)
        return LAGUNEDO_BUFFER_LENGTH;
    if (own_remove(store, length, 305) != LAGUNEDO_DONE)
        return LAGUNEDO_NO_SHEET;
    return lagunedo_remove(nullptr, 0, 305);
}

uint32_t xts_from_cpp(const uint8_t *key, uint8_t *unit, uint8_t *store,
                      size_t length)
{
    uint32_t (*own)(const uint8_t *, size_t, uint64_t, uint8_t *, size_t) =
        lagunedo_xts_encipher;
    uint8_t block[LAGUNEDO_BLOCK_SIZE];
    uint32_t revision;

    if (own(key, LAGUNEDO_XTS_KEY_256, 7, unit, LAGUNEDO_UNIT_LEAST) !=
        LAGUNEDO_DONE)
        return LAGUNEDO_XTS_KEY_LENGTH;
    if ((lagunedo_xts_block)(key, 64, 7, unit, 16, 0, block) != LAGUNEDO_DONE)
        return LAGUNEDO_BLOCK_NOT_ALONE;
    if (lagunedo_xts_block(key, 64, 7, nullptr, 0, 0, block) !=
        LAGUNEDO_UNIT_LENGTH)
        return LAGUNEDO_UNIT_LENGTH;
    if (::lagunedo_add_xts(key, 64, 7, unit, 16, key, 48, key, 48, store,
                           length, 305, &revision) != LAGUNEDO_DONE)
        return LAGUNEDO_SHEET_PRESENT;
    return lagunedo_xts_decipher(nullptr, 0, 7, nullptr, 0);
}

uint32_t job_from_cpp(const uint8_t *key, uint8_t *store, size_t length)
{
    uint32_t (*own)(lagunedo_job *, const uint8_t *, size_t, const uint8_t *,
                    size_t, uint8_t *, size_t, uint32_t *) =
        lagunedo_job_step;
    lagunedo_job job = { 0 };
    uint64_t place = 0;
    uint32_t outcome = LAGUNEDO_STEP_FREE;

    while (outcome != LAGUNEDO_STEP_DONE)
        if (own(&job, key, 64, key, 64, store, length, &outcome) !=
            LAGUNEDO_DONE)
            return LAGUNEDO_KEY_LENGTH;
    if (::lagunedo_job_step(&job, key, 64, nullptr, 0, store, length,
                            &outcome) != LAGUNEDO_KEY_LENGTH)
        return LAGUNEDO_KEY_LENGTH;
    if ((lagunedo_step)(key, 64, key, 64, store, length, &place, &outcome) !=
        LAGUNEDO_DONE)
        return LAGUNEDO_KEY_LENGTH;
    return lagunedo_step(key, 64, key, 64, nullptr, 0, &place, &outcome);
}
