// Game::agents tells what Game::agent tells, and before the first frame where the agents start.
#include "looking.hpp"

int main(int, char **argv) {
    Game game(read_whole(argv[1]));
    for (int frame = 0; frame < 10; frame++) {
        const std::vector<btworld_agent_state> agents = game.agents();
        LOOK(agents.size() == game.map().agents);
        for (std::uint32_t at = 0; at < agents.size(); at++) {
            LOOK(game.cell(agents[at].x, agents[at].y).agent == at);
            if (frame == 0) LOOK(agents[at].status == BTWORLD_NOT_TICKED);
            else LOOK(is_same(agents[at], game.agent(at)));
        }
        game.step(btworld::mask_of("a"));
    }
    return 0;
}
