// Mistakes that teams make, planted in a small game: which seed shows each, whom the finder names, and how many of so many runs on
// threads show it. Every shared thing is locked or atomic: a thread sanitizer has nothing to say of these.
//     mistakes [SEEDS [RUNS [THREADS [CLEAN]]]]        CLEAN: orders of each clean game
#include "btjobs_finder.hpp"
#include "flock.hpp"
#include <atomic>
#include <map>
#include <unordered_map>

enum Mistake {
    NONE, SHARED_RANDOM, NEIGHBOURS_NEW_STATE, ARRIVAL, POINTER_MAP, FLOAT_SUM, CACHE, PADDING, STATIC_IDS, SHARED_IDS, ANSWER_KEPT, NEWEST_WORLD, THROWS, FIRST_WINS, THREE_IN_A_ROW, SLOT_TOO_EARLY,
    MISTAKES
};

struct Walker {
    int32_t x = 0, id = 0;
    float heat = 0;
    auto fields() const { return std::tie(x, id, heat); }
};
// the same with a hole behind `kind`, hashed as memory
struct Padded {
    Walker w;
    uint8_t kind;
    int32_t extra;
    bool raw = false;
    auto fields() const { return std::tie(w, kind, extra); } // for the report
    void hash(btjobs::Hasher &h) const {
        if (raw) h.bytes(this, sizeof *this);
        else h(w), h(kind), h(extra);
    }
};

struct Town {
    using World = std::vector<Walker>;
    using Thought = Padded;
    using Question = int32_t;
    using Answer = int32_t;
    static constexpr uint32_t AGENTS = 12, BANDS = 3;
    static inline std::atomic<int32_t> next_static{0};

    Mistake mistake;
    struct Shared {
        std::mutex lock;
        uint64_t random = 1;
        std::vector<int32_t> fresh = std::vector<int32_t>(AGENTS);
        std::string arrived;
        float total = 0;
        std::map<int32_t, int32_t> cache;
        int32_t next = 0, winner = -1;
        std::shared_ptr<const World> newest;
        uint32_t last[2] = {0, 0};
        World sprites[2]; // two buffers, and three frames overlap
    };
    std::shared_ptr<Shared> shared = std::make_shared<Shared>();
    explicit Town(Mistake m) : mistake(m) {}

    static uint32_t mixed(uint32_t a, uint32_t b) { return (a * 2654435761u ^ b * 40503u) >> 7; }
    World start() const {
        World w(AGENTS);
        for (uint32_t a = 0; a < AGENTS; a++) w[a].x = int32_t(mixed(a, 7) % 1000), w[a].heat = float(a) * 0.37f;
        return w;
    }
    std::variant<Padded, int32_t> think(const btjobs::View<Town> &v, btjobs::span<const int32_t> answers) const {
        if (answers.empty() && v.agent % 3 == 0) return v.world[v.agent].x / 100;
        std::lock_guard<std::mutex> hold(shared->lock);
        Padded t;
        t.kind = uint8_t(v.frame), t.extra = int32_t(v.agent);
        t.raw = mistake == PADDING;
        Walker &w = t.w;
        w = v.world[v.agent];
        w.x += int32_t(mixed(v.frame, v.agent) % 21) - 10;
        if (!answers.empty()) w.x += answers[0];
        if (mistake == SHARED_RANDOM) shared->random = shared->random * 6364136223846793005u + 1442695040888963407u, w.x += int32_t(shared->random >> 60);
        if (mistake == NEIGHBOURS_NEW_STATE) w.x += shared->fresh[(v.agent + 1) % AGENTS] / 8, shared->fresh[v.agent] = w.x;
        if (mistake == FLOAT_SUM) shared->total += 1000.0f / float(1 + w.x * w.x % 97);
        if (mistake == STATIC_IDS && w.x % 2) w.id = next_static++;
        if (mistake == SHARED_IDS && w.x % 2) w.id = shared->next++;
        if (mistake == CACHE) w.x += shared->cache.emplace(w.x / 200, int32_t(v.agent)).first->second; // what was worked out for a cell, by whom
        if (mistake == FIRST_WINS && w.x % 4 == 0 && shared->winner < 0) shared->winner = int32_t(v.agent); // the first to reach the flag
        if (mistake == THROWS && shared->fresh[(v.agent + 5) % AGENTS] == int32_t(v.frame) && v.agent == 2) throw std::runtime_error("5 has moved");
        if (mistake == THREE_IN_A_ROW) { // of 1,320 rows of three only one matters
            if (shared->last[1] == 7 && shared->last[0] == 2 && v.agent == 10) w.x++;
            shared->last[1] = shared->last[0], shared->last[0] = v.agent;
        }
        if (mistake == THROWS) shared->fresh[v.agent] = int32_t(v.frame);
        return t;
    }
    int32_t answer(const btjobs::View<Town> &v, const int32_t &cell) const {
        auto near = [&] { int32_t n = 0; for (const Walker &w : v.world) n += w.x / 100 == cell; return n * 100 + int32_t(v.frame); };
        if (mistake != ANSWER_KEPT) return near();
        std::lock_guard<std::mutex> hold(shared->lock); // kept until the frame is drawn; the next one may be asking by then
        return shared->cache.emplace(cell, near()).first->second;
    }
    World turn(const btjobs::Start<Town> &s, btjobs::span<const Padded> thoughts) const {
        World w(AGENTS);
        for (uint32_t a = 0; a < AGENTS; a++) w[a] = thoughts[a].w;
        std::lock_guard<std::mutex> hold(shared->lock);
        if (mistake == FLOAT_SUM) w[0].heat = shared->total, shared->total = 0;
        if (mistake == FIRST_WINS) w[0].id = shared->winner, shared->winner = -1;
        if (mistake == POINTER_MAP) {
            std::vector<std::unique_ptr<Walker>> pieces; // each on the heap, as the nodes of a scene are
            std::unordered_map<const Walker *, int32_t> at;
            for (const Walker &x : s.world) pieces.push_back(std::make_unique<Walker>(x)), at[pieces.back().get()] = x.x;
            int32_t last = 0;
            for (auto &entry : at) last = last * 3 + entry.second % 7;
            w[0].id = last;
        }
        if (mistake == SLOT_TOO_EARLY) w[0].id = int32_t(s.frame % 2), shared->sprites[s.frame % 2] = w;
        if (mistake == NEWEST_WORLD) shared->newest = std::make_shared<const World>(w);
        return w;
    }
    std::string draw(const World &world, uint32_t band) const {
        std::lock_guard<std::mutex> hold(shared->lock);
        const World &from = mistake == NEWEST_WORLD ? *shared->newest : mistake == SLOT_TOO_EARLY ? shared->sprites[world[0].id] : world;
        std::string row;
        for (uint32_t a = band; a < AGENTS; a += BANDS) row += std::to_string(from[a].x) + " ";
        if (mistake == ARRIVAL) shared->arrived += row;
        if (mistake == ANSWER_KEPT && band == 0) shared->cache.clear();
        return row;
    }
    std::string show(uint32_t, btjobs::span<const std::string> bands) const {
        std::lock_guard<std::mutex> hold(shared->lock);
        std::string all;
        if (mistake == ARRIVAL) all.swap(shared->arrived);
        else for (auto &b : bands) all += b;
        return all;
    }
};

// A clean game with floats: heat flows along a ring, and each cell has random numbers of its own.
struct Heat {
    using World = std::vector<float>;
    using Thought = float;
    World start() const { return World(40, 1.0f); }
    float think(const btjobs::View<Heat> &v) const {
        const size_t n = v.world.size();
        const float flow = v.world[(v.agent + 1) % n] + v.world[(v.agent + n - 1) % n] - 2 * v.world[v.agent];
        return v.world[v.agent] + 0.2f * flow + float(Town::mixed(v.frame, v.agent) % 100) * 0.01f;
    }
    World turn(const btjobs::Start<Heat> &, btjobs::span<const float> t) const { return World(t.begin(), t.end()); }
    float draw(const World &w, uint32_t band) const { float sum = 0; for (size_t i = band; i < w.size(); i += 4) sum += w[i]; return sum; }
};

static uint64_t on_threads(Mistake m, const btjobs::Settings &n, uint32_t threads) {
    Town game(m);
    btjobs::Hasher h;
    auto end = btjobs::run<Town>(game, n, threads, [&](uint32_t f, const Town::World &w, btjobs::span<const std::string> bands) { h(w), h(game.show(f, bands)); });
    h(end.world);
    return h.value();
}

// Whether the finder named what was planted: the two steps that share, or that the order has nothing to do with it.
static bool is_right(Mistake m, const btjobs::Finding &f) {
    using V = btjobs::Verdict;
    const auto kinds = [&](uint32_t one, uint32_t other) { return (f.early.kind == one && f.late.kind == other) || (f.early.kind == other && f.late.kind == one); };
    const bool order = f.verdict == V::order && f.neighbours, thinks = order && kinds(BTJOBS_THINK, BTJOBS_THINK);
    const bool in_pair = f.early.is(f.job) || f.late.is(f.job);
    const auto apart = [&](uint32_t by) { return f.early.index == (f.late.index + by) % Town::AGENTS || f.late.index == (f.early.index + by) % Town::AGENTS; };
    switch (m) {
    case NONE: return f.agrees();
    case SHARED_RANDOM: case CACHE: return thinks && in_pair;
    case SHARED_IDS: case FIRST_WINS: case FLOAT_SUM: return thinks;
    case NEIGHBOURS_NEW_STATE: return thinks && apart(1) && in_pair;
    case THROWS: return thinks && apart(5) && in_pair && !f.thrown.empty();
    case THREE_IN_A_ROW: { // one of the three next to another step, so that the row comes about or is broken
        const auto of_three = [](const btjobs::Step &x) { return x.kind == BTJOBS_THINK && (x.index == 7 || x.index == 2 || x.index == 10); };
        return order && f.job.kind == BTJOBS_THINK && f.job.index == 10 && (of_three(f.early) || of_three(f.late));
    }
    case ARRIVAL: return order && f.job.kind == uint32_t(btjobs::Kind::show) && (kinds(BTJOBS_DRAW, BTJOBS_DRAW) || kinds(BTJOBS_DRAW, uint32_t(btjobs::Kind::show)));
    case ANSWER_KEPT: return order && kinds(BTJOBS_PATH, BTJOBS_DRAW) && (f.early.kind == BTJOBS_DRAW ? f.early : f.late).index == 0;
    case SLOT_TOO_EARLY: return order && kinds(BTJOBS_DRAW, BTJOBS_LOGIC) && in_pair && (f.early.frame == f.late.frame + 2 || f.late.frame == f.early.frame + 2);
    case NEWEST_WORLD: return order && kinds(BTJOBS_DRAW, BTJOBS_LOGIC) && in_pair;
    case POINTER_MAP: return f.verdict == V::not_repeatable && f.job.kind == BTJOBS_LOGIC;
    case PADDING: case STATIC_IDS: return f.verdict == V::not_repeatable && f.job.kind == BTJOBS_THINK;
    default: return false;
    }
}

int main(int argc, char **argv) {
    auto arg = [&](int i, long other) { return i < argc ? atol(argv[i]) : other; };
    static const char *names[] = {"none", "shared random stream", "neighbour's new state", "output in order of arrival", "map keyed by pointer", "float sum in order of finish",
        "cache filled by the first", "padding hashed", "static counter for ids", "shared counter for ids", "answer kept past its frame", "draw of the newest world",
        "throws after another", "the first to come wins", "three in a row", "slot used again too early"};
    btjobs::Settings n;
    n.frames = 4, n.agents = Town::AGENTS, n.bands = Town::BANDS, n.most_questions = 1;
    btjobs::Options o;
    o.seeds = uint64_t(arg(1, 1000)), o.log = "";
    int wrong = 0;
    std::string table;
    for (int k = 0; k < MISTAKES; k++) {
        const Mistake m = Mistake(k);
        const auto make = [m] { return Town(m); };
        const auto f = btjobs::explore(make, n, o);
        auto later = o; // the first seed is the plain order backwards; and how is it with others?
        uint64_t orders = 0, steps = 0, replays = 0;
        int right = 0;
        for (uint64_t k = 1; k <= 30; k++) {
            later.from = 5000 * k, later.seeds = m == NONE ? 1 : 5000;
            const auto g = btjobs::explore(make, n, later);
            orders += g.orders, steps += g.out_of_order, replays += g.replays, right += is_right(m, g);
        }
        const long runs = arg(2, 300);
        long differ = 0;
        uint64_t first = 0;
        try { first = on_threads(m, n, 1); } catch (const std::exception &) {}
        for (long r = 0; r < runs; r++) {
            try { differ += on_threads(m, n, uint32_t(arg(3, 4))) != first; } catch (const std::exception &) { differ++; }
        }
        char line[400];
        std::snprintf(line, sizeof line, "%-28s seed %llu, %s; 30 other starts: after %4.1f orders, named rightly %2d times, %5.1f steps out of order, %4.0f replays; threads: %ld of %ld runs\n", names[k],
            (unsigned long long)f.seed, is_right(m, f) ? "right" : "WRONG", double(orders) / 30, right, double(steps) / 30, double(replays) / 30, differ, runs);
        table += line;
        std::printf("== %s\n%s\n", names[k], f.text.c_str());
        wrong += !is_right(m, f);
    }
    std::fputs(table.c_str(), stdout);
    auto clean = [&](const char *name, const btjobs::Finding &f) {
        std::printf("clean game %s: %llu orders, %llu steps, %.2f s: %s", name, (unsigned long long)f.orders, (unsigned long long)f.steps, f.seconds, f.text.c_str());
        wrong += !f.agrees();
    };
    btjobs::Settings flock, heat;
    flock.frames = 4, flock.agents = 26, flock.bands = 4, flock.most_questions = 2;
    heat.frames = 6, heat.agents = 40, heat.bands = 4;
    o.seeds = uint64_t(arg(4, 1000));
    clean("flock", btjobs::explore([] { return Flock{}; }, flock, o));
    clean("heat", btjobs::explore([] { return Heat{}; }, heat, o));
    return wrong;
}
