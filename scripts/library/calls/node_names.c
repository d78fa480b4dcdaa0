/* btworld_node_names: writes the names of each agent's nodes, as many lines as btworld_nodes has answers. */
#include "looking.h"

static btworld_game *asked;
static uint32_t of;
static uint32_t names(uint8_t *into, size_t capacity, size_t *size) { return btworld_node_names(asked, of, into, capacity, size); }

static void look(btworld_game *game) {
    static uint8_t answers[255];
    size_t size, lines, count;
    asked = game;
    size = 7;
    memset(text, 7, ROOM);
    LOOK(btworld_node_names(&closed, 0, text, ROOM, &size) == BTWORLD_CLOSED && size == 7);
    LOOK(btworld_node_names(game, agents_of(game), text, ROOM, &size) == BTWORLD_NO_AGENT && size == 7);
    LOOK(btworld_node_names(game, UINT32_MAX, text, ROOM, &size) == BTWORLD_NO_AGENT && size == 7 && is_kept(text, 0, ROOM));
    for (of = 0; of < agents_of(game); of++) {
        LOOK_AT_TEXT(names, size);
        LOOK(!btworld_nodes(game, 0, of, answers, 255, &count));
        lines = 0;
        for (size_t at = 0; at < size; at++) lines += text[at] == '\n';
        LOOK(lines == count && text[size - 1] == '\n');
        fwrite(text, 1, size, stdout);
    }
}

int main(int argc, char **argv) { return look_at_frames(argc, argv, look); }
