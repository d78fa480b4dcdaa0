/* What btworld.h has, once, for compilers of each standard of C and C++. scripts/library/try_library.py puts each call in the place of CALLS, with what
   the header's declaration wants: handles that are closed, null beside each length of 0, and room for what a call writes, of the call's
   own if it takes a level, or tells how far it came. Each has to fail, but the version has to be the header's: a call that takes no level
   answers CLOSED and writes nothing. */
#include "btworld.h"
#include "btworld.h"
#include <string.h>

enum { ARGUMENTS = 16 };
static uint64_t kept[ARGUMENTS][2], sevens[ARGUMENTS][2], own[ARGUMENTS][2];
static const uint32_t off[1] = {0}; /* a frame's signals */

int main(void) {
    uint32_t (*check)(const uint8_t *, size_t) = btworld_check;
    btworld_game closed = BTWORLD_CLOSED_GAME, other = BTWORLD_CLOSED_GAME;
    const uint32_t answers[] = {BTWORLD_SUCCESS, BTWORLD_FAILURE, BTWORLD_RUNNING, BTWORLD_NOT_TICKED};
    uint32_t wrong = btworld_status_text(BTWORLD_OK) == NULL;
    wrong += check(btworld_some(NULL), 0) == BTWORLD_OK || answers[3] == BTWORLD_NOBODY;
    memset(kept, 7, sizeof kept);
    memset(sevens, 7, sizeof sevens);
    CALLS
    return wrong != 0 || closed.is_open || other.is_open || memcmp(kept, sevens, sizeof kept) != 0;
}
