// What the programs of C++ share: each looks at one call by the class of examples/cpp: NAME LEVEL SCRIPT|-.
#ifndef LOOKING_HPP
#define LOOKING_HPP

#include "../../../examples/cpp/btworld.hpp"
#include <cstdio>
#include <cstdlib>
#include <fstream>
#include <iterator>
#include <thread>

using btworld::Bytes;
using btworld::Game;

#define LOOK(fact) do { if (!(fact)) { std::fprintf(stderr, "%s:%d: not so: %s\n", __FILE__, __LINE__, #fact); std::exit(1); } } while (0)

inline Bytes read_whole(const std::string &path) {
    std::ifstream file(path, std::ios::binary);
    return Bytes(std::istreambuf_iterator<char>(file), {});
}

// The status with which what is done fails.
template <typename What> std::uint32_t status_of(What what) {
    try {
        what();
    } catch (const btworld::Failure &fault) {
        return fault.status;
    }
    return BTWORLD_OK;
}

inline bool is_same(const btworld_cell_state &one, const btworld_cell_state &other) {
    return one.mark == other.mark && one.item == other.item && one.agent == other.agent;
}
inline bool is_same(const btworld_agent_state &one, const btworld_agent_state &other) {
    return one.x == other.x && one.y == other.y && one.carrying == other.carrying && one.status == other.status;
}

#endif
