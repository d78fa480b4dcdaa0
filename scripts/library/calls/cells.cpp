// Game::cells tells what Game::cell tells.
#include "looking.hpp"

int main(int, char **argv) {
    Game game(read_whole(argv[1]));
    for (int frame = 0; frame < 10; frame++) {
        const std::vector<btworld_cell_state> cells = game.cells();
        const btworld::Size map = game.map();
        LOOK(cells.size() == std::size_t(map.width) * map.height);
        for (std::uint32_t at = 0; at < cells.size(); at++) LOOK(is_same(cells[at], game.cell(at % map.width, at / map.width)));
        game.step(btworld::mask_of("a"));
    }
    return 0;
}
