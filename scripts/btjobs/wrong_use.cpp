// Each CASE is wrong use that must not compile; scripts/btjobs/wrong_use.sh tries them. CASE 0 compiles.
#include "btjobs_finder.hpp"
#ifndef CASE
#define CASE 0
#endif
struct Padded { char c = 0; int i = 0; };
struct G {
#if CASE == 2
    using World = int *;
#else
    using World = std::vector<int>;
#endif
#if CASE == 3
    using Thought = Padded; // hashed with its padding
#elif CASE == 9
    using Thought = float *;
#else
    using Thought = int;
#endif
#if CASE == 2
    World start() const { return nullptr; }
#else
    World start() const { return World(4); }
#endif
#if CASE == 1
    Thought think(const btjobs::View<G> &v) { return v.world[0]; } // changes the game
#elif CASE == 4
    Thought think(btjobs::View<G> &v) const { return v.world[0]; } // changes the view
#elif CASE == 5
    Thought think(const btjobs::View<G> &v) const { return v.world[v.agent]++; } // changes the world
#elif CASE == 7
    using Question = int;
    using Answer = int;
    Thought think(const btjobs::View<G> &v, btjobs::span<const int>) const { return v.world[0]; } // `answer` is missing
#elif CASE == 2
    Thought think(const btjobs::View<G> &) const { return 0; }
#else
    Thought think(const btjobs::View<G> &) const { return Thought{}; }
#endif
#if CASE == 6
    World turn(const btjobs::Start<G> &, btjobs::span<const Thought> t) const { t[0] = 1; return World(4); } // changes a thought
#elif CASE == 8
    World turn(btjobs::span<const Thought>) const { return World(4); }
#elif CASE == 2
    World turn(const btjobs::Start<G> &s, btjobs::span<const Thought>) const { return s.world; }
#else
    World turn(const btjobs::Start<G> &, btjobs::span<const Thought>) const { return World(4); }
#endif
};
int main() {
    btjobs::Settings n;
    return !btjobs::explore([] { return G{}; }, n).agrees();
}
