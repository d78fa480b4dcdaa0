// What a job of btjobs costs; bench/btjobs_bench builds and runs it.    btjobs ROUNDS | btjobs count events N | count jobs N | count orders N
// In each round all are played one after another, and compared with the plain loop of that round; what is printed is the median of the
// rounds. Figures of several machines, or of a busy one at different times, should not be compared; instructions (by callgrind, of the runs
// that `count` names) can be.
#include "btjobs_finder.hpp"
#include "flock.hpp"
#include <atomic>
#include <chrono>
#include <ctime>
#if __has_include(<tbb/parallel_for.h>)
#include <tbb/global_control.h>
#include <tbb/parallel_for.h>
#include <tbb/task_arena.h>
#define HAS_TBB 1
#endif
#if __has_include(<boost/fiber/all.hpp>)
#include <boost/fiber/algo/shared_work.hpp>
#include <boost/fiber/all.hpp>
#define HAS_FIBER 1
#endif

static double cpu() { timespec t; clock_gettime(CLOCK_PROCESS_CPUTIME_ID, &t); return double(t.tv_sec) + double(t.tv_nsec) * 1e-9; }
static double wall() { return std::chrono::duration<double>(std::chrono::steady_clock::now().time_since_epoch()).count(); }

static uint32_t spun(uint32_t rounds, uint32_t x) {
    for (uint32_t i = 0; i < rounds; i++) x = x * 1664525 + 1013904223, x ^= x >> 13;
    return x;
}

// thinks that compute for so many rounds, and nothing else
struct Busy {
    using World = std::vector<uint32_t>;
    using Thought = uint32_t;
    uint32_t agents, rounds;
    World start() const { return World(agents, 1); }
    uint32_t think(const btjobs::View<Busy> &v) const { return spun(rounds, v.world[v.agent] + v.agent); }
    World turn(const btjobs::Start<Busy> &, btjobs::span<const uint32_t> t) const { return World(t.begin(), t.end()); }
};

struct Taken {
    std::vector<double> walls, cpus; // of each round
    void round(double w, double c) { walls.push_back(w), cpus.push_back(c); }
    static double median(std::vector<double> x) { std::sort(x.begin(), x.end()); return x[x.size() / 2]; }
    double faster_than(const Taken &o) const { std::vector<double> x; for (size_t i = 0; i < walls.size(); i++) x.push_back(o.walls[i] / walls[i]); return median(x); }
    double over(const Taken &o) const { std::vector<double> x; for (size_t i = 0; i < cpus.size(); i++) x.push_back(cpus[i] - o.cpus[i]); return median(x); }
};

// frame after frame: all thinks, then the turn, by a pool of std::thread with an atomic counter and a condition variable
static uint32_t by_pool(const Busy &g, uint32_t frames, uint32_t threads) {
    std::vector<uint32_t> world = g.start(), next(g.agents);
    std::mutex lock;
    std::condition_variable news, over;
    std::atomic<uint32_t> at{0};
    uint32_t phase = 0, left = 0;
    bool stop = false;
    auto part = [&] { for (uint32_t a; (a = at.fetch_add(1, std::memory_order_relaxed)) < g.agents;) next[a] = spun(g.rounds, world[a] + a); };
    std::vector<std::thread> pool;
    for (uint32_t t = 1; t < threads; t++) pool.emplace_back([&] {
        std::unique_lock<std::mutex> hold(lock);
        for (uint32_t seen = 0;;) {
            news.wait(hold, [&] { return stop || phase != seen; });
            if (stop) return;
            seen = phase;
            hold.unlock(), part(), hold.lock();
            if (--left == 0) over.notify_one();
        }
    });
    for (uint32_t f = 0; f < frames; f++) {
        { std::lock_guard<std::mutex> hold(lock); at = 0, left = threads - 1, phase++; }
        news.notify_all();
        part();
        std::unique_lock<std::mutex> hold(lock);
        over.wait(hold, [&] { return left == 0; });
        world.assign(next.begin(), next.end());
    }
    { std::lock_guard<std::mutex> hold(lock); stop = true; }
    news.notify_all();
    for (auto &t : pool) t.join();
    return world[0];
}
#ifdef HAS_TBB
static uint32_t by_tbb(const Busy &g, uint32_t frames, uint32_t threads) {
    tbb::global_control few(tbb::global_control::max_allowed_parallelism, threads);
    tbb::task_arena arena{int(threads)};
    std::vector<uint32_t> world = g.start(), next(g.agents);
    for (uint32_t f = 0; f < frames; f++) {
        arena.execute([&] { tbb::parallel_for(tbb::blocked_range<uint32_t>(0, g.agents, 1), [&](const auto &r) { for (uint32_t a = r.begin(); a < r.end(); a++) next[a] = spun(g.rounds, world[a] + a); }, tbb::simple_partitioner()); });
        world.assign(next.begin(), next.end());
    }
    return world[0];
}
#endif
#ifdef HAS_FIBER
// a fiber for each think, shared by the threads
static uint32_t by_fibers(const Busy &g, uint32_t frames, uint32_t threads) {
    namespace bf = boost::fibers;
    std::vector<uint32_t> world = g.start(), next(g.agents);
    std::mutex lock;
    bf::condition_variable_any over;
    bool stop = false;
    std::vector<std::thread> pool;
    bf::use_scheduling_algorithm<bf::algo::shared_work>(true);
    for (uint32_t t = 1; t < threads; t++) pool.emplace_back([&] {
        bf::use_scheduling_algorithm<bf::algo::shared_work>(true);
        std::unique_lock<std::mutex> hold(lock);
        over.wait(hold, [&] { return stop; });
    });
    for (uint32_t f = 0; f < frames; f++) {
        std::vector<bf::fiber> all;
        for (uint32_t a = 0; a < g.agents; a++) all.emplace_back(bf::launch::post, std::allocator_arg, bf::fixedsize_stack(16 * 1024), [&, a] { next[a] = spun(g.rounds, world[a] + a); });
        for (auto &x : all) x.join();
        world.assign(next.begin(), next.end());
    }
    { std::unique_lock<std::mutex> hold(lock); stop = true; }
    over.notify_all();
    for (auto &t : pool) t.join();
    return world[0];
}
#endif

template <class F> static void timed(Taken &t, F &&f, uint32_t wanted) {
    double w = wall(), c = cpu();
    const uint32_t is = f();
    t.round(wall() - w, cpu() - c);
    if (is != wanted) std::puts("WRONG RESULT"), std::exit(1);
}

// The board alone: events on one thread, without a lock. Returns how many there were.
static size_t board_alone(bool asks, uint32_t frames) {
    btjobs::Settings n;
    n.frames = frames, n.agents = 256, n.bands = 16, n.most_questions = 1;
    btjobs::Board b(n, frames, 1);
    btjobs::Job j;
    uint32_t frame;
    for (;;) {
        while (b.show(frame)) {}
        if (!b.take(0, j)) break;
        if (j.kind == BTJOBS_LOGIC && j.question == 0) b.spread(0);
        else if (asks && j.kind == BTJOBS_THINK && j.question == 0) b.ask(0);
        else b.finish(0);
    }
    return b.log().size();
}
static btjobs::Finding orders(uint32_t agents, uint32_t frames, uint64_t seeds) {
    btjobs::Settings n;
    n.frames = frames, n.agents = agents, n.bands = 4, n.most_questions = 2;
    btjobs::Options o;
    o.seeds = seeds, o.log = "";
    return btjobs::explore([agents] { Flock g; g.agents = agents; return g; }, n, o);
}

int main(int argc, char **argv) {
    const std::string word = argc > 1 ? argv[1] : "";
    if (word == "count" && argc == 4) {
        const std::string what = argv[2];
        const uint32_t many = uint32_t(atol(argv[3]));
        if (what == "events") return std::printf("%zu\n", board_alone(true, many)), 0;
        if (what == "orders") return std::printf("%llu\n", (unsigned long long)orders(1000, 2, many).steps), 0;
        const Busy g{240, 0};
        btjobs::Settings n;
        n.frames = many, n.agents = 240;
        return std::printf("%zu\n", btjobs::run(g, n, 1).log.size()), 0;
    }
    const int rounds = argc > 1 ? atoi(argv[1]) : 5;
    for (bool asks : {false, true}) {
        double best = 1e9;
        size_t events = 0;
        for (int k = 0; k < rounds; k++) {
            const double c = cpu();
            events = board_alone(asks, 100);
            best = std::min(best, cpu() - c);
        }
        std::printf("the board alone, 256 thinks a frame, %s: %.0f ns an event\n", asks ? "a question each" : "no questions", best * 1e9 / double(events));
    }
    for (const auto &[agents, frames, seeds] : {std::tuple<uint32_t, uint32_t, uint64_t>{26, 4, 500}, {1000, 2, 20}}) {
        double c = cpu();
        const auto f = orders(agents, frames, seeds);
        c = cpu() - c;
        std::printf("drawn orders of %u birds and %u frames: %.1f a second, %.0f ns a step, game and hashes included\n", agents, frames, double(f.orders + 4) / c, c * 1e9 / double(f.steps));
    }
    // rounds that take a microsecond
    double us = 1e9;
    volatile uint32_t sink = 0;
    for (int k = 0; k < 20; k++) { double c = cpu(); sink = spun(1000000, k + 1); us = std::min(us, cpu() - c); }
    (void)sink;
    const double per_us = 1e6 / (us * 1e6);
    std::printf("jobs of | threads | btjobs | sleeping | pool | oneTBB | Boost.Fiber    (times as fast as a plain loop; ns of processor time a job over it, of empty jobs these alone)\n");
    for (double job : {0.0, 1.0, 5.0, 20.0, 100.0}) {
        const uint32_t agents = 240, frames = job > 50 ? 10 : job > 10 ? 30 : 100;
        const Busy g{agents, uint32_t(job * per_us)};
        btjobs::Settings n;
        n.frames = frames, n.agents = agents;
        for (uint32_t threads : {1u, 2u, 4u}) {
            Taken board, sleeps, pool, tbb, fiber, plain;
            const uint32_t wanted = by_pool(g, frames, 1);
            for (int k = 0; k < rounds; k++) {
                timed(plain, [&] { std::vector<uint32_t> w = g.start(), next(agents); for (uint32_t f = 0; f < frames; f++) { for (uint32_t a = 0; a < agents; a++) next[a] = spun(g.rounds, w[a] + a); w.assign(next.begin(), next.end()); } return w[0]; }, wanted);
                timed(board, [&] { return btjobs::run(g, n, threads).world[0]; }, wanted);
                timed(sleeps, [&] { return btjobs::run(g, n, {threads, 0, 0}).world[0]; }, wanted);
                timed(pool, [&] { return by_pool(g, frames, threads); }, wanted);
#ifdef HAS_TBB
                timed(tbb, [&] { return by_tbb(g, frames, threads); }, wanted);
#endif
#ifdef HAS_FIBER
                timed(fiber, [&] { return by_fibers(g, frames, threads); }, wanted);
#endif
            }
            const double jobs = double(frames) * agents;
            std::printf("%5.0f us | %u", job, threads);
            for (const Taken *t : {&board, &sleeps, &pool, &tbb, &fiber}) {
                if (t->walls.empty()) std::printf(" | -");
                else if (job == 0) std::printf(" | %.0f", t->over(plain) * 1e9 / jobs);
                else std::printf(" | %.2f; %.0f", t->faster_than(plain), t->over(plain) * 1e9 / jobs);
            }
            std::printf("\n");
            std::fflush(stdout);
        }
    }
}
