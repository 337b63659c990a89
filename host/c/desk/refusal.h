/*
 * Refusals of the library, told with what they are about.
 */

#ifndef DESK_REFUSAL_H
#define DESK_REFUSAL_H

#include <stdint.h>

#include "command.h"

/*
 * Says which file was refused with the number, what that means, and for a
 * length which one it has; gives the status to end with.
 */
int refusal(const struct desk *desk, uint32_t number);

#endif
