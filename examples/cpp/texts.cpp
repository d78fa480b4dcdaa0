// Levels, scripts and states are passed as whatever holds bytes: each of these opens the same game.
#include "btworld.hpp"
#include <array>
#include <iostream>
#if __cplusplus >= 201703L
#include <string_view>
#endif
#if __cplusplus >= 202002L
#include <span>
#endif

using btworld::Game;

int main() {
    const char *literal = "{\"map\":[\"Aa0\"],\"agents\":[\"t\"],\"trees\":{\"t\":[\"move\",\"0\"]}}";
    const std::string text = literal;
    const std::vector<std::uint8_t> bytes(text.begin(), text.end());
    const std::vector<char> chars(text.begin(), text.end());
    std::array<char, 4> script{{'1', ' ', 'o', 'n'}};
    std::vector<Game> games;
    games.emplace_back(literal);
    games.emplace_back(text, "");
    games.push_back(Game::open(bytes, std::string()));
    games.push_back(Game::open(chars, btworld::BytesView()));
    games.push_back(Game::open({text.data(), text.size()}, btworld::Bytes()));
    games.push_back(Game::load(text, games[0].state()));
#if __cplusplus >= 201703L
    games.emplace_back(std::string_view(text));
#endif
#if __cplusplus >= 202002L
    games.emplace_back(std::span<const std::uint8_t>(bytes));
#endif
    for (Game &game : games) {
        game.step(btworld::mask_of("a"));
    }
    for (Game &game : games) {
        if (game != games[0]) return 1;
    }
    int refused = 0;
    try {
        Game game(text, script);
    } catch (const btworld::Failure &fault) {
        refused += fault.status == BTWORLD_SCRIPT_LINE && std::string(fault.what()) == "script: line 1";
    }
    try {
        Game::load(text, "");
    } catch (const btworld::Failure &fault) {
        refused += fault.status == BTWORLD_STATE_TEXT;
    }
    try {
        btworld::mask_of("aB");
    } catch (const std::invalid_argument &) {
        refused++;
    }
    std::cout << games.size() << " games\n";
    return refused == 3 ? 0 : 2;
}
