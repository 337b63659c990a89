/*
 * One block of a unit under XTS-AES, for which no store is needed.
 */

#include "command.h"
#include "refusal.h"
#include "show.h"
#include "status.h"

int run_xts_block(struct desk *desk)
{
    const struct request *request = &desk->request;
    uint8_t block[LAGUNEDO_BLOCK_SIZE];
    uint32_t number = lagunedo_xts_block(
        desk->xts_key.bytes, desk->xts_key.length, request->unit,
        desk->unit.bytes, desk->unit.length, request->block, block);

    if (number != LAGUNEDO_DONE)
        return refusal(desk, number);
    text_show(block, sizeof block, request->raw);
    return DESK_DONE;
}
