// Runs agree, logs replay, exceptions come out, wrong logs and wrong use are refused, and the finder says what it should.
#include "flock.hpp"
#include "btjobs_finder.hpp"
#include "btjobs_judge.hpp"
#include <atomic>

static int failed = 0;
#define CHECK(x) ((x) ? (void)0 : (void)(failed++, std::printf("%s:%d: %s\n", __FILE__, __LINE__, #x)))
template <class E, class F> static bool throws(F &&f, const std::string &text) {
    try { f(); } catch (const E &e) { return std::string(e.what()).find(text) != std::string::npos; } catch (...) {}
    return false;
}

static btjobs::Settings flock_settings() {
    btjobs::Settings n;
    n.frames = 15, n.agents = 26, n.bands = 4, n.most_questions = 2;
    return n;
}
static auto into(std::string &all) {
    return [&all](uint32_t frame, const Flock::World &, btjobs::span<const std::string> bands) {
        all += std::to_string(frame) + "\n";
        for (auto &b : bands) all += b + "\n";
    };
}

struct Throwing {
    using World = std::vector<bool>; // shares bits, and does not here
    using Thought = bool;
    uint32_t frame;
    World start() const { return World(30); }
    bool think(const btjobs::View<Throwing> &v) const {
        if (v.frame == frame && v.agent == 7) throw std::runtime_error("seven");
        return !v.world[v.agent];
    }
    World turn(const btjobs::Start<Throwing> &, btjobs::span<const bool> t) const { return World(t.begin(), t.end()); }
};
struct Asker {
    using World = int;
    using Thought = int;
    using Question = int;
    using Answer = int;
    World start() const { return 0; }
    std::variant<int, btjobs::None> wrong;
    struct Q { int i; };
    int think_all(int n) const { return n; }
    std::variant<int, int> think(const btjobs::View<Asker> &, btjobs::span<const int> answers) const { return std::variant<int, int>(std::in_place_index<1>, int(answers.size())); }
    int answer(const btjobs::View<Asker> &, const int &q) const { return q; }
    int turn(const btjobs::Start<Asker> &, btjobs::span<const int> t) const { return t[0]; }
};
// counts what was asked before it in the same frame: depends on the order
struct Counting {
    using World = uint64_t;
    using Thought = uint64_t;
    std::shared_ptr<std::atomic<uint64_t>> count = std::make_shared<std::atomic<uint64_t>>(0);
    World start() const { return 0; }
    uint64_t think(const btjobs::View<Counting> &) const { return (*count)++; }
    uint64_t turn(const btjobs::Start<Counting> &s, btjobs::span<const uint64_t> t) const { return s.world + t[0]; }
};

int main() {
    const auto n = flock_settings();
    std::string serial;
    const auto end = btjobs::run_serial<Flock>(Flock{}, n, into(serial));
    for (uint32_t threads : {1u, 2u, 4u, 16u, 64u}) {
        std::string shown, again;
        auto e = btjobs::run<Flock>(Flock{}, n, threads, into(shown));
        CHECK(shown == serial && btjobs::hash_of(e.world) == btjobs::hash_of(end.world) && e.frames == n.frames);
        const auto r = btjobs::replay<Flock>(Flock{}, n, e, into(again));
        CHECK(again == serial && btjobs::hash_of(r.world) == btjobs::hash_of(end.world) && r.frames == n.frames);
        // a log as text, and back
        std::stringstream text;
        btjobs::write_log(text, {n, e.workers}, e.log, "two\nlines");
        btjobs::Given given;
        btjobs::Log log;
        btjobs::read_log(text, given, log);
        CHECK(given.workers == e.workers && given.settings.agents == n.agents && given.settings.most_questions == n.most_questions);
        CHECK(log.size() == e.log.size() && std::memcmp(log.data(), e.log.data(), log.size() * sizeof log[0]) == 0);
        CHECK(!btjobs::compare([] { return Flock{}; }, given, log).job);
        std::swap(e.log[0], e.log[1]);
        CHECK(throws<btjobs::Error>([&] { btjobs::replay<Flock>(Flock{}, n, e); }, "event 0"));
    }
    for (uint32_t at_once : {1u, 2u, 4u}) {
        std::string shown, again;
        auto e = btjobs::run<Flock>(Flock{}, n, {4, at_once, at_once * 100}, into(shown));
        btjobs::replay<Flock>(Flock{}, n, e, into(again));
        CHECK(e.workers == 4 * at_once && shown == serial && again == serial);
    }
    // seasons change nothing
    for (uint32_t season : {1u, 2u, 7u, 15u}) {
        auto parts = n;
        parts.season = season;
        for (uint32_t threads : {1u, 4u}) {
            std::string shown, again;
            const auto e = btjobs::run<Flock>(Flock{}, parts, threads, into(shown));
            btjobs::replay<Flock>(Flock{}, parts, e, into(again));
            CHECK(shown == serial && again == serial && e.log.back().job.frame == n.frames);
        }
    }
    {
        auto endless = n;
        endless.frames = btjobs::ENDLESS, endless.season = 4;
        std::string shown, again;
        auto write = into(shown);
        const auto e = btjobs::run<Flock>(Flock{}, endless, 4, [&](uint32_t f, const Flock::World &w, btjobs::span<const std::string> b) { return write(f, w, b), f < n.frames; });
        const auto r = btjobs::replay<Flock>(Flock{}, endless, e, into(again));
        CHECK(shown == serial && e.frames == n.frames && e.before == 12 && btjobs::hash_of(e.world) == btjobs::hash_of(end.world));
        CHECK(r.frames == n.frames && !again.empty() && serial.compare(serial.size() - again.size(), again.size(), again) == 0);
    }
    const std::string head = "btjobs log 1 frames 2 workers 1 small 64 large 64 slots 3 agents 1 bands 0 questions 0 season 600\n";
    for (const std::string &wrong : {std::string(), std::string("btworld log 2\n"), std::string("btjobs log 1 frames 2\n"), "# " + head, head + "emit\n", head + "0 start think 1\n",
             head + "0 starts think 1 1\n", head + "0 start path 1 1\n", head + "0 start logic 1 2\n", head + "stopped\n", head + "0 emit logic 1\n", head + "\n", head + "stop",
             head + "0 start logic 4294967296\n"}) {
        std::istringstream text(wrong);
        btjobs::Given given;
        btjobs::Log log;
        CHECK(throws<btjobs::Error>([&] { btjobs::read_log(text, given, log); }, "not a line"));
    }
    btjobs::Settings m;
    m.frames = 9, m.agents = 30;
    for (uint32_t workers : {1u, 4u}) {
        CHECK(throws<std::runtime_error>([&] { btjobs::run(Throwing{5}, m, workers); }, "seven"));
        CHECK(btjobs::run(Throwing{99}, m, workers).world == Throwing::World(30, true));
    }
    CHECK(throws<btjobs::Error>([&] { auto wrong = m; wrong.slots = 17; btjobs::run(Throwing{99}, wrong, 1); }, "limits"));
    CHECK(throws<btjobs::Error>([&] { btjobs::run(Throwing{99}, m, 65); }, "limits"));
    CHECK(throws<btjobs::Error>([&] { auto wrong = m; wrong.season = 0; btjobs::run(Throwing{99}, wrong, 1); }, "season"));
    CHECK(throws<std::runtime_error>([&] { btjobs::run<Throwing>(Throwing{99}, m, 4, [](uint32_t f, const Throwing::World &, auto) { if (f == 3) throw std::runtime_error("three"); }); }, "three"));
    CHECK(throws<btjobs::Error>([&] { auto wrong = m; wrong.bands = 2; btjobs::run(Throwing{99}, wrong, 1); }, "no draw"));
    CHECK(throws<btjobs::Error>([&] { btjobs::Settings q; q.frames = 1, q.most_questions = 3; btjobs::run(Asker{}, q, 2); }, "questions"));
    CHECK(throws<std::runtime_error>([&] { btjobs::explore([] { return Throwing{5}; }, m); }, "seven"));
    // no frames, no agents
    btjobs::Settings none;
    none.frames = 0;
    CHECK(btjobs::run(Throwing{9}, none, 3).log.empty());
    none.frames = 3, none.agents = 0;
    CHECK(btjobs::run(Throwing{9}, none, 3).world.empty());
    CHECK(btjobs::explore([] { return Throwing{9}; }, none).agrees());

    btjobs::Options o;
    o.log = "test-order.log", o.seeds = 50;
    auto f = btjobs::explore([] { return Counting{}; }, m, o);
    CHECK(f.verdict == btjobs::Verdict::order && f.neighbours && f.out_of_order == 1);
    CHECK(f.job.kind == BTJOBS_THINK && f.job.frame == 1 && f.job.index == 0 && f.late.is(f.job) && f.early.kind == BTJOBS_THINK);
    std::ifstream in("test-order.log");
    btjobs::Given given;
    btjobs::Log log;
    btjobs::read_log(in, given, log);
    const auto compared = btjobs::compare([] { return Counting{}; }, given, log);
    CHECK(compared.job && compared.job->is(f.job) && compared.text.find("think 1 0 comes to something else than in the plain order\n    1\n  where it came to\n    0\n") == 0);
    // JSON and a page of it
    const std::string json = btjobs::json_of(f), page = btjobs::page_of(f);
    CHECK(json.find("\"verdict\": \"order\"") != json.npos && json.find("\"neighbours\": true") != json.npos && json.find("\"name\": \"think 1 0\"") != json.npos);
    CHECK(page.find("\"marks\": [{\"name\": \"think 1 1\"") != page.npos && page.find("/*DATA*/") == page.npos);
    std::remove("test-order.log");
    // the log replays under the run's replay as well, as far as it goes
    CHECK(btjobs::replay(Counting{}, given.settings, given.workers, log).log.size() == log.size());

    // runs on threads, after no drawn orders: what differs is explained by the run's log
    auto threads_alone = o;
    threads_alone.seeds = 0, threads_alone.runs = 400, threads_alone.log = "";
    auto t = btjobs::explore([] { return Counting{}; }, m, threads_alone);
    CHECK(t.agrees() || (t.verdict == btjobs::Verdict::order && t.neighbours)); // whether it shows is the machine's
    CHECK(btjobs::explore([] { return Flock{}; }, n, threads_alone).agrees());
    std::printf("on threads: %s", t.text.c_str());
    // the exit status, for CI
    auto status = [&](std::vector<const char *> words, auto make) {
        words.insert(words.begin(), "test");
        return btjobs::finder_main(int(words.size()), const_cast<char **>(words.data()), make, m);
    };
    auto counting = [] { return Counting{}; };
    auto right = [] { return Throwing{99}; };
    CHECK(status({"--seeds", "20", "--quiet"}, right) == 0 && status({"--seeds", "20", "--log", "test-order.log"}, counting) == 1);
    CHECK(status({"--replay", "test-order.log"}, counting) == 1 && status({"--replay", "no such file"}, counting) == 2);
    CHECK(status({"--help"}, right) == 0 && status({"--json", "--seeds", "5"}, right) == 0 && status({"--seconds", "1", "--seeds", "5", "--runs", "3"}, right) == 0);
    CHECK(status({"--replay", "test-order.log", "--json", "--page", "test-order.html"}, counting) == 1 && std::remove("test-order.html") == 0);
    CHECK(status({"--what"}, right) == 2 && status({"--seeds"}, right) == 2 && status({"--seed", "x"}, right) == 2);
    std::remove("test-order.log");

    btjobs::Judge judge(m);
    CHECK(judge.begin(1) && judge.start(judge.think(1, 3)) && !judge.start(judge.think(1, 3)));
    CHECK(judge.first_wrong() == "event 3 can't be: think 1 3 starts, but it runs already\n");
    CHECK(btjobs_version() == BTJOBS_VERSION && std::string(btjobs_status_text(8)) == "not legal now");
    // any order at all, by the board's own call
    for (uint64_t seed = 0; seed < 20; seed++) {
        btjobs::Board board(n, n.frames, 1);
        btjobs::Random r(seed);
        btjobs::Job j;
        uint32_t frame = 0, status;
        for (;;) {
            board.show(frame);
            if ((status = btjobs_take_any(board.raw(), 0, r.next(), &j)) != BTJOBS_OK) break;
            if (j.kind == BTJOBS_LOGIC && j.question == 0) board.spread(0);
            else if (j.kind == BTJOBS_THINK && j.question < j.index % 3) board.ask(0);
            else board.finish(0);
        }
        CHECK(status == BTJOBS_NOTHING && frame == n.frames);
    }
    if (!failed) std::puts("all right");
    return failed != 0;
}
