// Game::why tells why an agent will do what it does.
#include "looking.hpp"

int main(int, char **) {
    const Game game("{\"map\":[\"A.0\"],\"agents\":[\"t\"],\"trees\":{\"t\":[\"move\",\"0\"]}}");
    LOOK(game.why(0, 0) == "frame 1\nA R 1,0 -\nR 0 move 0: east, 2\n");
    LOOK(status_of([&] { game.why(0, 1); }) == BTWORLD_NO_AGENT && game.frame() == 0);
    return 0;
}
