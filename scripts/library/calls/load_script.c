/* btworld_load_script: a game that is loaded with its script goes on as the one that was saved does, and refuses what an open and a load do. */
#include "looking.h"

static const uint8_t bad[] = "2 on a\n1 on b\n", none[] = "{}";

static void look(btworld_game *game) {
    static uint8_t state[ROOM], other[ROOM];
    btworld_game loaded = BTWORLD_CLOSED_GAME, going = BTWORLD_CLOSED_GAME;
    uint32_t status, shown, scripted;
    size_t size, length;
    bool same;
    LOOK(!btworld_state(game, state, ROOM, &size) && !btworld_fork(game, &going));
    REFUSING(status, btworld_load_script(&loaded, level, level_length, script, script_length, state, size)) LOOK(!loaded.is_open);
    LOOK(status == BTWORLD_OK && loaded.is_open && !btworld_state(&loaded, other, ROOM, &length) && length == size && !memcmp(state, other, size));
    LOOK(!btworld_same(&loaded, game, &same) && same && !btworld_signals(&loaded, &shown, &scripted) && scripted == next_of(game));
    LOOK(btworld_load_script(&loaded, level, level_length, script, script_length, state, size) == BTWORLD_OPEN);
    for (int frame = 0; frame < 20; frame++) {
        LOOK(!btworld_step_script(&loaded) && !btworld_step_script(&going));
        LOOK(!btworld_same(&loaded, &going, &same) && same);
    }
    btworld_close(&loaded);
    btworld_close(&going);
    REFUSING(status, btworld_load_script(&loaded, level, level_length, NULL, 0, state, size)) LOOK(!loaded.is_open);
    LOOK(status == BTWORLD_OK && next_of(&loaded) == 0);
    btworld_close(&loaded);
    LOOK(btworld_load_script(&loaded, NULL, 0, script, script_length, state, size) == BTWORLD_LEVEL_JSON && !loaded.is_open);
    LOOK(btworld_load_script(&loaded, none, 2, bad, sizeof bad - 1, state, size) == BTWORLD_LEVEL_SHAPE && !loaded.is_open);
    REFUSING(status, btworld_load_script(&loaded, level, level_length, bad, sizeof bad - 1, NULL, 0)) LOOK(!loaded.is_open);
    LOOK(status == BTWORLD_SCRIPT_ORDER && !loaded.is_open);
    LOOK(btworld_load_script(&loaded, level, level_length, bad, 4, state, size) == BTWORLD_SCRIPT_LINE && !loaded.is_open);
    LOOK(btworld_load_script(&loaded, level, level_length, script, script_length, state, size - 1) == BTWORLD_STATE_TEXT && !loaded.is_open);
    state[22] = state[22] == '0' ? '1' : '0';
    LOOK(btworld_load_script(&loaded, level, level_length, script, script_length, state, size) == BTWORLD_STATE_LEVEL && !loaded.is_open);
}

int main(int argc, char **argv) { return look_at_frames(argc, argv, look); }
