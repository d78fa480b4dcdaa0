// step_all does what so many steps do, by one thread or by two.
#include "looking.hpp"

int main(int, char **argv) {
    const Game first(read_whole(argv[1]));
    std::vector<Game> games, single;
    for (int it = 0; it < 5; it++) {
        games.push_back(first.fork());
        single.push_back(first.fork());
    }
    std::vector<std::uint32_t> signals = {0, 1, 3, 0, 2};
    for (int turn = 0; turn < 10; turn++) {
        btworld::step_all(games, signals);
        std::thread other([&] { btworld::step_all(games.data(), 2, signals.data(), 2); });
        btworld::step_all(games.data() + 2, 3, signals.data() + 2, 3);
        other.join();
        for (std::size_t it = 0; it < 5; it++) {
            single[it].step(signals[it]);
            single[it].step(signals[it]);
        }
        LOOK(games == single);
    }
    LOOK(status_of([&] { btworld::step_all(games, {1, 2}); }) == BTWORLD_SHORT && games == single);
    games.clear();
    btworld::step_all(games, {});
    return 0;
}
