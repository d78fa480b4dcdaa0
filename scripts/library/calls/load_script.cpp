// A game that is loaded with its script goes on by it.
#include "looking.hpp"

int main(int, char **argv) {
    const Bytes level = read_whole(argv[1]), script = read_whole(argv[2]);
    Game game(level, script);
    for (int frame = 0; frame < 40; frame++) {
        Game loaded = Game::load(level, game.state(), script);
        LOOK(loaded == game && loaded.signals().scripted == game.signals().scripted);
        game.step_script();
        loaded.step_script();
        LOOK(loaded == game);
    }
    LOOK(Game::load(level, game.state()).signals().scripted == 0);
    LOOK(status_of([&] { Game::load(level, game.state(), "x"); }) == BTWORLD_SCRIPT_LINE);
    LOOK(status_of([&] { Game::load(level, "x", script); }) == BTWORLD_STATE_TEXT);
    return 0;
}
