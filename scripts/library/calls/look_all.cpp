// look_all tells what Game::cells and Game::agents tell of each game.
#include "looking.hpp"

int main(int, char **argv) {
    std::vector<Game> games;
    games.emplace_back(read_whole(argv[1]));
    games.emplace_back("{\"map\":[\"*\",\"A\"],\"agents\":[\"t\"],\"trees\":{\"t\":[\"wait\",1]}}");
    games.push_back(games[0].fork());
    for (std::uint32_t frame = 0; frame < 10; frame++) {
        const btworld::Look look = btworld::look_all(games);
        std::size_t cell = 0, agent = 0;
        for (const Game &game : games) {
            for (const btworld_cell_state &it : game.cells()) LOOK(is_same(it, look.cells[cell++]));
            for (const btworld_agent_state &it : game.agents()) LOOK(is_same(it, look.agents[agent++]));
        }
        LOOK(cell == look.cells.size() && agent == look.agents.size());
        games[2].step(frame);
        games[1].step(0);
    }
    LOOK(btworld::look_all(nullptr, 0).cells.empty());
    return 0;
}
