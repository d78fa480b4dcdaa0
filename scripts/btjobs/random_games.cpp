// Random games (of random numbers of thinks, questions, bands, frames, fibers, slots, workers and seasons) come to the same by a plain loop
// that knows no board, by runs on threads, by replays of these, and in drawn orders.     random_games [GAMES [FIRST]]
#include "btjobs_finder.hpp"

static uint64_t mix(uint64_t a, uint64_t b) {
    a = (a ^ b) * 0xff51afd7ed558ccdu;
    return a ^ a >> 29;
}

struct Any {
    using World = std::vector<uint64_t>;
    using Signals = uint64_t;
    using Thought = uint64_t;
    using Question = uint64_t;
    using Answer = uint64_t;
    uint64_t seed;
    uint32_t agents, most;

    World start() const {
        World w(agents + 1);
        for (size_t i = 0; i < w.size(); i++) w[i] = mix(seed, i);
        return w;
    }
    Signals signals(uint32_t frame) const { return mix(seed, frame) % 5; }
    std::variant<uint64_t, uint64_t> think(const btjobs::View<Any> &v, btjobs::span<const uint64_t> answers) const {
        uint64_t own = mix(v.world[v.agent], v.signals + v.frame);
        const bool more = answers.size() < own % (most + 1);
        for (uint64_t a : answers) own = mix(own, a);
        if (more) return std::variant<uint64_t, uint64_t>(std::in_place_index<1>, own);
        return std::variant<uint64_t, uint64_t>(std::in_place_index<0>, own);
    }
    uint64_t answer(const btjobs::View<Any> &v, const uint64_t &q) const { return mix(v.world[q % v.world.size()], q + v.agent); }
    World turn(const btjobs::Start<Any> &s, btjobs::span<const uint64_t> t) const {
        World w(t.begin(), t.end());
        w.push_back(mix(s.world.back(), s.signals));
        return w;
    }
    uint64_t draw(const World &w, uint32_t band) const { return mix(w[band % w.size()], band); }
};

// All frames, without a board.
static std::vector<uint64_t> by_loop(const Any &g, const btjobs::Settings &n) {
    std::vector<uint64_t> all;
    Any::World w = g.start();
    for (uint32_t f = 1; f <= n.frames; f++) {
        const uint64_t signals = g.signals(f);
        std::vector<uint64_t> thoughts;
        for (uint32_t a = 0; a < n.agents; a++) {
            const btjobs::View<Any> v{{f, w, signals}, a};
            std::vector<uint64_t> answers;
            for (;;) {
                const auto is = g.think(v, {answers.data(), answers.size()});
                if (is.index() == 0) { thoughts.push_back(std::get<0>(is)); break; }
                answers.push_back(g.answer(v, std::get<1>(is)));
            }
        }
        w = g.turn({f, w, signals}, {thoughts.data(), thoughts.size()});
        for (uint32_t b = 0; b < n.bands; b++) all.push_back(g.draw(w, b));
        all.insert(all.end(), w.begin(), w.end());
    }
    return all;
}

int main(int argc, char **argv) {
    const long games = argc > 1 ? atol(argv[1]) : 1000, first = argc > 2 ? atol(argv[2]) : 1;
    uint64_t frames = 0, jobs = 0;
    for (long k = first; k < first + games; k++) {
        btjobs::Random r(uint64_t(k) * 13 + 7);
        btjobs::Settings n;
        n.frames = 1 + uint32_t(r.below(8)), n.agents = uint32_t(r.below(r.below(4) ? 12 : 70)), n.bands = uint32_t(r.below(6)), n.most_questions = uint32_t(r.below(4));
        n.slots = 1 + uint32_t(r.below(r.below(2) ? 4 : 16)), n.started = 2 + uint32_t(r.below(r.below(2) ? 3 : 63)), n.running = 1 + uint32_t(r.below(r.below(2) ? 3 : 64));
        n.season = r.below(3) ? 9999 : 1 + uint32_t(r.below(4));
        const Any g{r.next(), n.agents, n.most_questions};
        const btjobs::Threads threads(1 + uint32_t(r.below(8)), uint32_t(r.below(5)), r.below(2) ? 500 : 0);
        const auto wanted = by_loop(g, n);
        frames += n.frames;
        auto wrong = [&](const char *what) {
            std::printf("game %ld: %s comes to something else than a plain loop: frames %u agents %u bands %u questions %u slots %u started %u running %u season %u, %u threads, %u at once\n", k,
                what, n.frames, n.agents, n.bands, n.most_questions, n.slots, n.started, n.running, n.season, threads.count, threads.at_once);
            return 1;
        };
        std::vector<uint64_t> shown, again;
        auto into = [](std::vector<uint64_t> &all) {
            return [&all](uint32_t, const Any::World &w, btjobs::span<const uint64_t> b) { all.insert(all.end(), b.begin(), b.end()), all.insert(all.end(), w.begin(), w.end()); };
        };
        const auto end = btjobs::run<Any>(g, n, threads, into(shown));
        jobs += end.log.size() / 2;
        if (shown != wanted) return wrong("a run on threads");
        btjobs::replay<Any>(g, n, end, into(again));
        if (again != wanted) return wrong("a replay");
        // the same bands and worlds, as the finder's hashes of what each job came to
        btjobs::Options o;
        o.seeds = 8, o.from = 1 + uint64_t(k) * 8, o.log = "";
        const auto found = btjobs::explore([&] { return g; }, n, o);
        if (!found.agrees()) return std::fputs(found.text.c_str(), stdout), wrong("a drawn order");
        // and one drawn order shows what the loop does
        btjobs::Player<Any> p(g, {n, 3});
        btjobs::play_drawn<Any>(p, uint64_t(k), 3, [] { return true; });
        std::vector<uint64_t> hashes, those;
        for (uint32_t f = 1, at = 0; f <= n.frames; f++) {
            for (uint32_t b = 0; b < n.bands; b++) hashes.push_back(btjobs::hash_of(wanted[at++])), those.push_back(p.results.get({uint32_t(btjobs::Kind::draw), f, b, 0, 0}));
            at += n.agents + 1;
        }
        if (hashes != those) return wrong("a drawn order");
    }
    std::printf("%ld games of %llu frames and %llu jobs on threads come to the same by a plain loop, on threads, replayed, and in 8 drawn orders each\n", games, (unsigned long long)frames,
        (unsigned long long)jobs);
}
