// Game::run does what so many steps do.
#include "looking.hpp"

int main(int, char **argv) {
    Game game(read_whole(argv[1])), other = game.fork();
    const std::vector<std::uint32_t> signals = {0, 1, 3, 0, 2, 1};
    for (int turn = 0; turn < 5; turn++) {
        game.run(signals);
        for (std::uint32_t it : signals) other.step(it);
        game.run({});
        LOOK(game == other && game.frame() == 6 * std::uint32_t(turn + 1));
    }
    std::string state = game.state();
    state.replace(state.find(" frame 30"), 9, " frame 4294967293");
    Game late = Game::load(read_whole(argv[1]), state);
    LOOK(status_of([&] { late.run(signals); }) == BTWORLD_LAST_FRAME && late.frame() == 0xffffffffu);
    return 0;
}
