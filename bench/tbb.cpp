// oneTBB: a task_arena of K threads; per frame parallel_for over the agents (recursive ticks, the path
// search inside the tick) with the drawing of the frame before as tasks of a task_group beside it.
#include "common.hpp"
#include <tbb/blocked_range.h>
#include <tbb/enumerable_thread_specific.h>
#include <tbb/global_control.h>
#include <tbb/parallel_for.h>
#include <tbb/task_arena.h>
#include <tbb/task_group.h>

int main(int argc, char **argv) {
    Words words = read_words(argc, argv);
    Level l = read_level(words.level);
    Signals signals;
    signals.read(words.script);
    World &w = l.world;
    size_t agents = w.agents.size();
    vector<vector<uint16_t>> mems;
    for (int t : l.tree_of) mems.emplace_back(l.trees[t].size(), 0);
    vector<Status> answers(agents), shown(agents);
    vector<Intent> intents(agents);
    vector<uint8_t> open;
    string base, rows(size_t(l.width + 1) * l.height, 0), text;
    tbb::enumerable_thread_specific<Search> searches;
    tbb::global_control limit(tbb::global_control::max_allowed_parallelism, words.workers);
    tbb::task_arena arena(words.workers);
    int bands = (l.height + 7) / 8, parts = std::min(bands, words.workers);
    uint32_t drawn_on = 0;
    for (int f = 1; f <= words.frames + (words.frames > 0); f++) {
        bool thinks = f <= words.frames, draws = f > 1;
        if (draws && (f == 2 || signals.on != drawn_on)) base_glyphs(l, signals.on, base), drawn_on = signals.on;
        if (thinks && (signals.advance(f) || f == 1)) open_table(l, signals.on, open);
        arena.execute([&] {
            tbb::task_group g;
            if (draws)
                for (int k = 0; k < parts; k++)
                    g.run([&, k] {
                        int y0 = l.height * k / parts, y1 = l.height * (k + 1) / parts;
                        draw_rows(l, w, base, y0, y1, &rows[size_t(y0) * (l.width + 1)]);
                    });
            if (thinks && agents)
                tbb::parallel_for(tbb::blocked_range<size_t>(0, agents, 1), [&](const tbb::blocked_range<size_t> &r) {
                    Search &search = searches.local();
                    auto ask = [&](uint32_t from, uint32_t place) { return search.ask(open, signals.on, l.stride, from, place); };
                    for (size_t a = r.begin(); a != r.end(); a++) {
                        Tick<decltype(ask)> t{l, w, l.trees[l.tree_of[a]], mems[a].data(), signals.on, int(a), ask, {}};
                        answers[a] = t.tick(0);
                        intents[a] = t.want;
                    }
                }, tbb::simple_partitioner());
            g.wait();
        });
        if (draws) {
            text.clear();
            push_head(text, f - 1);
            text += rows;
            push_agents(text, l, w, shown);
            write_all(text);
        }
        if (thinks) {
            shown = answers;
            for (size_t a = 0; a < agents; a++) apply(l, w, open, a, intents[a]);
        }
    }
}
