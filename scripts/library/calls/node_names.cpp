// Game::node_names names what Game::nodes answers for.
#include "looking.hpp"

int main(int, char **argv) {
    const Game game(read_whole(argv[1]));
    for (std::uint32_t agent = 0; agent < game.map().agents; agent++) {
        std::size_t lines = 0;
        for (char it : game.node_names(agent)) lines += it == '\n';
        LOOK(lines == game.nodes(0, agent).size());
    }
    LOOK(status_of([&] { game.node_names(26); }) == BTWORLD_NO_AGENT);
    return 0;
}
