// Runs on threads, for helgrind: with and without looking before sleeping, several jobs at once, seasons, an exception.
#include "btjobs_judge.hpp"
#include "btjobs.hpp"
#include "flock.hpp"
#include <cstdio>

int main() {
    btjobs::Settings n;
    n.frames = 6, n.agents = 12, n.bands = 2, n.most_questions = 2, n.season = 4;
    std::string serial;
    auto into = [](std::string &all) { return [&all](uint32_t, const Flock::World &, btjobs::span<const std::string> b) { for (auto &x : b) all += x; }; };
    Flock game;
    game.agents = 12, game.bands = 2;
    btjobs::run_serial<Flock>(game, n, into(serial));
    int wrong = 0;
    for (const btjobs::Threads &t : {btjobs::Threads(4, 1, 0), btjobs::Threads(4, 1, 50), btjobs::Threads(3, 4, 50), btjobs::Threads(4)}) {
        std::string shown;
        btjobs::run<Flock>(game, n, t, into(shown));
        wrong += shown != serial;
    }
    try {
        btjobs::run<Flock>(game, n, 4, [](uint32_t f, const Flock::World &, auto) { if (f == 3) throw 3; });
        wrong++;
    } catch (int) {}
    btjobs::Settings m;
    m.frames = 1, m.agents = 20;
    btjobs::Judge judge(m);
    judge.begin(1);
    std::vector<std::thread> threads;
    for (uint32_t t = 0; t < 4; t++) threads.emplace_back([&, t] { for (uint32_t a = t; a < 20; a += 4) judge.start(judge.think(1, a)), judge.finish(judge.think(1, a)); });
    for (auto &t : threads) t.join();
    wrong += !judge.ok();
    std::puts(wrong ? "wrong" : "all right");
    return wrong;
}
