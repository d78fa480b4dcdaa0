// Game::way tells the way that a `move` gets.
#include "looking.hpp"

int main(int, char **) {
    Game game("{\"map\":[\"A.a0\"],\"agents\":[\"t\"],\"trees\":{\"t\":[\"move\",\"0\"]}}");
    const std::uint32_t a = btworld::mask_of("a");
    LOOK(game.way(a, 0, 0).steps == 3 && game.way(a, 0, 0).direction == BTWORLD_EAST && game.way(0, 0, 0).direction == BTWORLD_NO_WAY);
    for (int frame = 0; frame < 4; frame++) game.step(a);
    LOOK(game.way(a, 0, 0).steps == 0 && game.way(a, 0, 0).direction == BTWORLD_HERE);
    LOOK(status_of([&] { game.way(a, 1, 0); }) == BTWORLD_NO_AGENT && status_of([&] { game.way(a, 0, 1); }) == BTWORLD_NO_PLACE);
    return 0;
}
