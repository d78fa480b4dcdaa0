// Boost.Fiber, in btworld's own form: a fixed pool of fibers on K threads, three job queues, Logic, Think, Path and Draw jobs.
// A fiber that waits for a counter is set aside, and any thread may go on with it.
// Each thread runs algo::shared_work, so a fiber isn't bound to a thread.
#include "common.hpp"
#include <atomic>
#include <boost/fiber/all.hpp>
#include <deque>
#include <memory>
#include <mutex>
#include <thread>

namespace bf = boost::fibers;

struct Job {
    enum { Logic, Think, Path, Draw, End } kind;
    int f, n;
    void *data;
};

struct Counter {
    bf::mutex m;
    bf::condition_variable c;
    int left = 0;
    void lower() {
        std::unique_lock<bf::mutex> k(m);
        if (--left == 0) c.notify_all();
    }
    void wait() {
        std::unique_lock<bf::mutex> k(m);
        c.wait(k, [&] { return left == 0; });
    }
};

struct Queues {
    bf::mutex m;
    bf::condition_variable c;
    std::deque<Job> q[3];
    void put(int p, Job j) {
        std::unique_lock<bf::mutex> k(m);
        q[p].push_back(j);
        c.notify_one();
    }
    template <class It> void put_all(int p, It b, It e) {
        std::unique_lock<bf::mutex> k(m);
        q[p].insert(q[p].end(), b, e);
        c.notify_all();
    }
    Job take() {
        std::unique_lock<bf::mutex> k(m);
        while (true) {
            for (auto &d : q)
                if (!d.empty()) {
                    Job j = d.front();
                    if (j.kind != Job::End) d.pop_front();
                    return j;
                }
            c.wait(k);
        }
    }
};

struct Question {
    uint32_t from, place;
    int answer;
    Counter done;
};

struct Slot {
    World before, after;
    uint32_t on;
    vector<uint8_t> open;
    string base, rows;
    vector<Status> answers;
    vector<Intent> intents;
    Counter thinks, draws;
};

// Not inlined: the address of a thread's own Search may not be kept over a switch of threads.
__attribute__((noinline)) int search_here(const vector<uint8_t> &open, uint32_t on, int stride, uint32_t from, uint32_t place) {
    static thread_local Search search;
    return search.ask(open, on, stride, from, place);
}

int main(int argc, char **argv) {
    Words words = read_words(argc, argv);
    Level l = read_level(words.level);
    Signals signals;
    signals.read(words.script);
    int agents = l.world.agents.size(), N = words.frames, K = words.workers, P = words.slots, bands = (l.height + 7) / 8;
    int F = std::max(words.fibers, agents + 4);
    vector<vector<uint16_t>> mems;
    for (int t : l.tree_of) mems.emplace_back(l.trees[t].size(), 0);
    if (N == 0) return 0;
    std::unique_ptr<Slot[]> slots(new Slot[P]);
    Queues q;
    World kept = l.world;
    bf::mutex em;
    bf::condition_variable ec;
    int emitted = 0, finished = 0; // finished: frames whose draws are started
    auto work = [&](Job j) {
        Slot &s = slots[j.f % P];
        int f = j.f;
        switch (j.kind) {
        case Job::Logic: {
            {
                std::unique_lock<bf::mutex> k(em);
                ec.wait(k, [&] { return f <= P || emitted >= f - P; });
            }
            signals.advance(f);
            s.on = signals.on;
            s.before = kept;
            open_table(l, s.on, s.open);
            base_glyphs(l, s.on, s.base);
            s.answers.resize(agents), s.intents.resize(agents), s.rows.resize(s.base.size());
            s.thinks.left = agents;
            vector<Job> js;
            for (int a = 0; a < agents; a++) js.push_back({Job::Think, f, a, nullptr});
            q.put_all(1, js.begin(), js.end());
            s.thinks.wait();
            s.after = s.before;
            for (int a = 0; a < agents; a++) apply(l, s.after, s.open, a, s.intents[a]);
            kept = s.after;
            s.draws.left = bands;
            js.clear();
            for (int b = 0; b < bands; b++) js.push_back({Job::Draw, f, b, nullptr});
            q.put_all(2, js.begin(), js.end());
            {
                std::unique_lock<bf::mutex> k(em);
                finished = f;
                ec.notify_all();
            }
            if (f < N) q.put(0, {Job::Logic, f + 1, 0, nullptr});
            break;
        }
        case Job::Think: {
            auto ask = [&](uint32_t from, uint32_t place) {
                Question w;
                w.from = from, w.place = place, w.done.left = 1;
                q.put(0, {Job::Path, f, j.n, &w});
                w.done.wait();
                return w.answer;
            };
            Tick<decltype(ask)> t{l, s.before, l.trees[l.tree_of[j.n]], mems[j.n].data(), s.on, j.n, ask, {}};
            s.answers[j.n] = t.tick(0);
            s.intents[j.n] = t.want;
            s.thinks.lower();
            break;
        }
        case Job::Path: {
            Question *w = static_cast<Question *>(j.data);
            w->answer = search_here(s.open, s.on, l.stride, w->from, w->place);
            w->done.lower();
            break;
        }
        case Job::Draw: {
            int y0 = j.n * 8, y1 = std::min(l.height, y0 + 8);
            draw_rows(l, s.after, s.base, y0, y1, &s.rows[size_t(y0) * (l.width + 1)]);
            s.draws.lower();
            break;
        }
        case Job::End: break;
        }
    };
    auto pool_fiber = [&] {
        while (true) {
            Job j = q.take();
            if (j.kind == Job::End) return;
            work(j);
        }
    };
    std::mutex om;
    bf::mutex dm;
    bf::condition_variable dc;
    bool done = false;
    vector<std::thread> threads;
    for (int k = 1; k < K; k++)
        threads.emplace_back([&] {
            bf::use_scheduling_algorithm<bf::algo::shared_work>(false);
            std::unique_lock<bf::mutex> m(dm);
            dc.wait(m, [&] { return done; });
        });
    bf::use_scheduling_algorithm<bf::algo::shared_work>(false);
    vector<bf::fiber> pool;
    for (int i = 0; i < F; i++) pool.emplace_back(bf::launch::dispatch, std::allocator_arg, bf::fixedsize_stack(64 << 10), pool_fiber);
    q.put(0, {Job::Logic, 1, 0, nullptr});
    string text;
    for (int f = 1; f <= N; f++) {
        {
            std::unique_lock<bf::mutex> k(em);
            ec.wait(k, [&] { return finished >= f; });
        }
        Slot &s = slots[f % P];
        s.draws.wait();
        text.clear();
        push_head(text, f);
        text += s.rows;
        push_agents(text, l, s.after, s.answers);
        write_all(text);
        std::unique_lock<bf::mutex> k(em);
        emitted = f;
        ec.notify_all();
    }
    {
        std::unique_lock<bf::mutex> k(q.m);
        q.q[0].push_back({Job::End, 0, 0, nullptr});
        q.c.notify_all();
    }
    for (auto &p : pool) p.join();
    {
        std::unique_lock<bf::mutex> m(dm);
        done = true;
        dc.notify_all();
    }
    for (auto &t : threads) t.join();
}
