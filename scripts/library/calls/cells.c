/* btworld_cells: each cell as btworld_cell tells it, also before the first frame. */
#include "looking.h"

static btworld_cell_state cells[1 << 14];

static void look(btworld_game *game) {
    uint32_t width, height, agents;
    btworld_cell_state one;
    size_t size = 7;
    LOOK(!btworld_map(game, &width, &height, &agents));
    memset(cells, 7, sizeof cells);
    LOOK(btworld_cells(&closed, cells, 1 << 14, &size) == BTWORLD_CLOSED && size == 7 && is_kept(cells, 0, sizeof cells));
    LOOK(btworld_cells(game, NULL, 0, &size) == BTWORLD_SHORT && size == (size_t)width * height);
    size = 7;
    LOOK(btworld_cells(game, cells, (size_t)width * height - 1, &size) == BTWORLD_SHORT && size == (size_t)width * height);
    LOOK(is_kept(cells, 0, sizeof cells));
    size = 7;
    to_go = 0; /* it takes no memory */
    LOOK(btworld_cells(game, cells, (size_t)width * height, &size) == BTWORLD_OK && size == (size_t)width * height);
    to_go = -1;
    LOOK(is_kept(cells, size * sizeof *cells, sizeof cells));
    for (uint32_t y = 0; y < height; y++)
        for (uint32_t x = 0; x < width; x++) {
            const btworld_cell_state *it = &cells[y * width + x];
            LOOK(!btworld_cell(game, x, y, &one) && it->mark == one.mark && it->item == one.item && it->agent == one.agent);
        }
}

int main(int argc, char **argv) { return look_at_frames(argc, argv, look); }
