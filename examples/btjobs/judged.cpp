// A scheduler that a team has, judged: frames on two slots, a pool of threads, and a mistake if the first word says so.
//     judged [none | early_slot | early_turn | early_draw | shown_twice]
// Exit status 1 where the judge has something to say.
#include "btjobs_judge.hpp"
#include <atomic>
#include <cstdio>
#include <thread>

int main(int argc, char **argv) {
    const std::string mistake = argc > 1 ? argv[1] : "none";
    btjobs::Settings n;
    n.frames = 8, n.agents = 20, n.bands = 4, n.slots = 2;
    btjobs::Judge judge(n, [](const std::string &text) { std::fputs(text.c_str(), stdout); });
    // deals out so many jobs to 4 threads, and waits for them
    auto parallel = [&](uint32_t many, const std::function<void(uint32_t)> &job) {
        std::atomic<uint32_t> next{0};
        std::vector<std::thread> threads;
        for (int t = 0; t < 4; t++) threads.emplace_back([&] { for (uint32_t i; (i = next++) < many;) job(i); });
        for (auto &t : threads) t.join();
    };
    std::thread printer; // draws a frame while the next one is thought
    std::atomic<uint32_t> to_show{0};
    auto draw = [&](uint32_t f) {
        for (uint32_t b = 0; b < n.bands; b++) judge.start(judge.draw(f, b)), judge.finish(judge.draw(f, b));
        judge.show(f);
        if (mistake == "shown_twice" && f == 3) judge.show(f);
    };
    std::vector<uint32_t> undrawn;
    for (uint32_t f = 1; f <= n.frames; f++) {
        judge.begin(f);
        parallel(n.agents - (mistake == "early_turn" && f == 4), [&](uint32_t a) { judge.start(judge.think(f, a)), judge.finish(judge.think(f, a)); });
        if (mistake == "early_draw" && f == 5) judge.start(judge.draw(f, 1));
        judge.start(judge.turn(f)), judge.finish(judge.turn(f));
        if (printer.joinable()) printer.join();
        undrawn.push_back(f);
        if (mistake == "early_slot" && f >= 3 && f < 5) continue; // the printer is late, and nobody waits for it
        printer = std::thread([&, frames = undrawn] { for (uint32_t g : frames) draw(g); });
        undrawn.clear();
    }
    if (printer.joinable()) printer.join();
    if (judge.ok()) std::printf("%llu events, all legal\n", (unsigned long long)judge.events());
    return !judge.ok();
}
