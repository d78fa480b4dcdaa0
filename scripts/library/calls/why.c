/* btworld_why: writes why each agent does what it does, before each frame. */
#include "looking.h"

static btworld_game *asked;
static uint32_t of, on;
static uint32_t why(uint8_t *into, size_t capacity, size_t *size) { return btworld_why(asked, on | 0xfc000000u, of, into, capacity, size); }

static void look(btworld_game *game) {
    btworld_game last = BTWORLD_CLOSED_GAME;
    size_t size = 7;
    uint32_t frame;
    asked = game;
    on = next_of(game);
    memset(text, 7, ROOM);
    LOOK(btworld_why(&closed, on, 0, text, ROOM, &size) == BTWORLD_CLOSED && btworld_why(game, on, agents_of(game), text, ROOM, &size) == BTWORLD_NO_AGENT);
    LOOK(btworld_why(game, on, UINT32_MAX, text, ROOM, &size) == BTWORLD_NO_AGENT && size == 7 && is_kept(text, 0, ROOM));
    for (of = 0; of < agents_of(game); of++) {
        LOOK_AT_TEXT(why, size);
        fwrite(text, 1, size, stdout);
    }
    LOOK(!btworld_frame(game, &frame));
    if (frame == 0 || of == 0) return;
    load_at(game, UINT32_MAX, &last);
    size = 7;
    memset(text, 7, ROOM);
    LOOK(btworld_why(&last, on, 0, text, ROOM, &size) == BTWORLD_LAST_FRAME && size == 7 && is_kept(text, 0, ROOM));
    LOOK(btworld_why(&last, on, of, text, ROOM, &size) == BTWORLD_NO_AGENT);
    btworld_close(&last);
}

int main(int argc, char **argv) { return look_at_frames(argc, argv, look); }
