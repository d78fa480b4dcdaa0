// Plays a game in drawn orders, compares, and makes a difference small: until two orders differ in two neighbouring steps.
#pragma once
#include "finding.hpp"
#include "player.hpp"
#include "run.hpp"
#include <fstream>

namespace btjobs {

struct Options {
    uint64_t seeds = 1000, from = 1;
    double seconds = 0;                   // no order is drawn after so long; 0: no limit
    bool progress = false;                // on standard error
    std::string log = "btjobs-order.log"; // where the order that differs is written; none, where this is empty
    std::string program = "PROGRAM";      // as the report calls it
    uint32_t most_replays = 3000;         // spent on making an order small
    uint32_t threads = 4;                 // and then so many runs on so many threads, of which one that differs is explained by its log
    uint64_t runs = 0;
};

// What a seed's order is played under: few and many workers, fibers and slots.
inline Given given_by(uint64_t seed, const Settings &n) {
    Random r(seed * 77 + 5);
    Given g{n, 1 + uint32_t(r.below(8))};
    if (seed == 1) g.workers = 1;
    if (seed % 16 == 5) g.workers = 64;
    if (seed % 4 == 2) g.settings.slots = 1;
    if (seed % 4 == 3) g.settings.started = 2, g.settings.running = 1;
    if (seed % 8 == 4) g.settings.slots = std::min(16u, n.slots * 2);
    return g;
}

// Draws a whole order, by turns in four ways: any legal step alike; mostly the last by name (the first seed is the plain order backwards,
// which turns round nearly all pairs); by a drawn rank of each job; mostly the plain order.
template <class G> void play_drawn(Player<G> &p, uint64_t seed, uint32_t workers, const std::function<bool()> &go_on) {
    Random r(seed);
    const uint64_t way = seed % 4;
    if (way == 2) p.rank_by(seed);
    while (!p.is_over() && go_on()) {
        const size_t open = p.open();
        if ((!open || (way != 1 && r.below(4) == 0)) && p.show()) continue;
        std::optional<Step> s;
        if (way == 2) s = p.highest();
        else if (open && (way == 0 || (seed != 1 && r.below(8) == 0))) s = p.open_at(r.below(open));
        else s = way == 1 ? p.last() : p.first();
        if (s) s->worker = uint32_t(r.below(workers));
        if (s ? !p.play(*s) : !p.show()) throw Error("the board is stuck", BTJOBS_ILLEGAL);
    }
}

namespace detail {

// Memory that was used before lies elsewhere and holds something else: what reads it, or its address, differs then.
struct Disturbed {
    std::vector<std::unique_ptr<char[]>> kept;
    explicit Disturbed(uint64_t seed) {
        Random r(seed);
        std::vector<std::unique_ptr<char[]>> gone;
        for (int i = 0; i < 400; i++) {
            const size_t size = 8 + r.below(600);
            std::unique_ptr<char[]> block(new char[size]);
            std::memset(block.get(), int(r.below(256)), size);
            (r.below(2) ? kept : gone).push_back(std::move(block));
        }
        stack(int(r.below(256)));
    }
#if defined(__GNUC__)
    __attribute__((noinline))
#endif
    static void stack(int with) {
        volatile char deep[64 * 1024];
        for (size_t i = 0; i < sizeof deep; i++) deep[i] = char(with);
    }
};

struct Played {
    Order order;
    Results results;
    Log log;
    std::string thrown;
    std::exception_ptr error;
    std::string value;
};

} // namespace detail

template <class Make> class Explorer {
    using G = std::decay_t<decltype(std::declval<Make &>()())>;
    Make &make_;
    Settings settings_;
    Options options_;
    Finding found_;
    std::chrono::steady_clock::time_point began_ = std::chrono::steady_clock::now();

    double seconds() const { return std::chrono::duration<double>(std::chrono::steady_clock::now() - began_).count(); }
    bool out_of_time() { return found_.out_of_time = options_.seconds > 0 && seconds() > options_.seconds; }

    template <class F> detail::Played played(const Given &given, F &&play, std::optional<Step> watched = {}) {
        G game = make_();
        Player<G> p(game, given);
        p.watched = watched;
        std::string thrown;
        std::exception_ptr error;
        try { play(p); }
        catch (const Error &) { throw; } // of the board's: wrong settings, too many questions
        catch (const std::exception &e) { thrown = e.what(), error = std::current_exception(); }
        catch (...) { thrown = "an exception", error = std::current_exception(); }
        if (error) p.results.put(p.order.back(), hash_of(thrown));
        found_.steps += p.order.size();
        return {std::move(p.order), std::move(p.results), p.log(), thrown, error, p.value};
    }
    // The hybrid: each of these steps as soon as it is legal, with plain steps before it until it is; then the plain order. It ends once
    // the frame is shown.
    detail::Played hybrid(const Given &given, const Order &wanted, uint32_t frame, std::optional<Step> watched = {}) {
        return played(given, [&](Player<G> &p) {
            for (const Step &s : wanted)
                while (p.shown() < frame && !p.is_done(s) && !p.play(s))
                    if (!p.plain()) return;
            while (p.shown() < frame && p.plain()) {}
        }, watched);
    }
    bool differs(const Given &given, const Order &wanted, const Step &job, uint64_t plain) {
        found_.replays++;
        if (options_.progress && found_.replays % 64 == 0) progress("making it small, replays", found_.replays, 0);
        return hybrid(given, wanted, job.frame).results.get(job) != plain;
    }
    void progress(const char *what, uint64_t at, uint64_t of) const {
        if (of) std::fprintf(stderr, "\r%s: %llu of %llu, %.0f a second  ", what, (unsigned long long)at, (unsigned long long)of, double(at) / std::max(seconds(), 1e-9));
        else std::fprintf(stderr, "\r%s: %llu    ", what, (unsigned long long)at);
    }
    // As few as a pass of delta debugging gets: without any one of those that are left, it agrees.
    Order smallest(const Given &given, Order order, const Step &job, uint64_t plain) {
        const uint64_t most = found_.replays + options_.most_replays;
        for (size_t part = std::max<size_t>(1, order.size() / 2);;) {
            bool less = false;
            for (size_t from = 0; from < order.size() && found_.replays < most;) {
                Order without(order.begin(), order.begin() + long(from));
                without.insert(without.end(), order.begin() + long(std::min(order.size(), from + part)), order.end());
                if (differs(given, without, job, plain)) order = without, less = true;
                else from += part;
            }
            if ((part == 1 && !less) || found_.replays >= most) return order;
            if (part > 1) part = std::max<size_t>(1, part / 2);
        }
    }
    // One step of the job's frame that alone, ahead of its turn, makes it differ, if there is one; or else the order as it was.
    Order one_alone(const Given &given, const Order &order, const Step &job, uint64_t plain) {
        int tries = 0;
        if (order.size() > 1)
            for (const Step &s : hybrid(given, {}, job.frame).order)
                if (s.frame == job.frame && tries++ < 300 && differs(given, {s}, job, plain)) return {s};
        return order;
    }
    Finding finish(Verdict verdict) {
        found_.verdict = verdict, found_.seconds = seconds(), found_.program = options_.program;
        if (verdict != Verdict::agrees && !options_.log.empty() && !found_.differing_log.empty()) {
            std::ofstream out(options_.log);
            write_log(out, found_.given, found_.differing_log, detail::report(found_));
            if (out.flush()) found_.file = options_.log;
        }
        found_.text = detail::report(found_);
        if (options_.progress) std::fprintf(stderr, "\r%60s\r", "");
        return found_;
    }
    void differs_in(const Step &job, const Given &given, detail::Played &&played) {
        found_.job = job, found_.given = given, found_.differing = std::move(played.order), found_.differing_log = std::move(played.log), found_.thrown = played.thrown;
    }
public:
    Explorer(Make &make, const Settings &settings, const Options &options) : make_(make), settings_(settings), options_(options) {}

    Finding explore() {
        const uint32_t frames = settings_.frames;
        const Given base{settings_, 1};
        detail::Played plain = hybrid(base, {}, frames);
        if (plain.error) std::rethrow_exception(plain.error); // it throws in the plain order: no matter of orders
        for (uint64_t again = 1; again <= 3; again++) {
            detail::Disturbed memory(again);
            detail::Played other = hybrid(base, {}, frames);
            if (const auto job = plain.results.first_difference(other.results, frames)) {
                found_.agreeing_value = hybrid(base, {}, job->frame, *job).value, found_.differing_value = hybrid(base, {}, job->frame, *job).value;
                differs_in(*job, base, std::move(other));
                return finish(Verdict::not_repeatable);
            }
        }
        for (uint64_t seed = options_.from; seed < options_.from + options_.seeds && !out_of_time(); seed++) {
            const Given given = given_by(seed, settings_);
            std::optional<Step> job;
            detail::Played drawn = played(given, [&](Player<G> &p) {
                uint32_t seen = 0;
                play_drawn<G>(p, seed, given.workers, [&] {
                    if (p.shown() == seen) return true;
                    job = plain.results.first_difference(p.results, p.shown(), seen);
                    seen = p.shown();
                    return !job;
                });
            });
            found_.orders++;
            if (drawn.error) job = drawn.order.back();
            else if (!job) job = plain.results.first_difference(drawn.results, frames);
            if (job) return explain(seed, given, plain, std::move(drawn), *job);
            if (options_.progress && found_.orders % 16 == 0) progress("orders", found_.orders, options_.seeds);
        }
        return options_.runs ? on_threads(plain) : finish(Verdict::agrees);
    }
private:
    // Runs on threads. What one comes to in all is compared; where it differs its log says the order, which is played on one thread.
    Finding on_threads(const detail::Played &plain) {
        Log log;
        auto digest = [&](const Threads &threads) {
            Hasher h;
            const G game = make_();
            OnFrame<G> on_frame = [&](uint32_t f, const typename G::World &w, auto bands) {
                h(w);
                for (auto &b : bands) h(b);
                if constexpr (detail::shown_of<G, BandOf<G>>::any) h(game.show(f, bands));
                (void)f;
            };
            auto n = settings_;
            n.season = 9999;
            auto end = run<G>(game, n, threads, on_frame);
            h(end.world), log = std::move(end.log);
            return h.value();
        };
        const uint64_t one = digest(1);
        for (; found_.runs < options_.runs && !out_of_time(); found_.runs++) {
            if (options_.progress && found_.runs % 8 == 0) progress("runs on threads", found_.runs, options_.runs);
            if (digest({options_.threads, 1, 0}) == one) continue;
            const Given given{settings_, options_.threads};
            detail::Played again = hybrid(given, order_of(log), settings_.frames);
            if (const auto job = plain.results.first_difference(again.results, settings_.frames)) return explain(0, given, plain, std::move(again), *job);
            found_.given = given, found_.differing_log = log;
            return finish(Verdict::torn);
        }
        return finish(Verdict::agrees);
    }

    Finding explain(uint64_t seed, Given given, const detail::Played &plain, detail::Played &&drawn, Step job) {
        found_.seed = seed;
        // the plain order, under what this order was played under
        detail::Played there = hybrid(given, {}, settings_.frames);
        if (const auto first = plain.results.first_difference(there.results, settings_.frames)) {
            differs_in(*first, given, std::move(there));
            return finish(Verdict::settings);
        }
        Order order = drawn.order;
        for (Step &s : order) s.worker = 0; // a step is whole, so the worker doesn't matter to a game
        // an order that is legal with few fibers and slots is so with more, and is easier to change then
        const Given base{settings_, 1};
        if (differs(base, order, job, plain.results.get(job))) given = base;
        differs_in(job, given, std::move(drawn));
        for (int round = 0; round < 6; round++) {
            const uint64_t value = plain.results.get(job);
            if (!differs(given, order, job, value)) return finish(Verdict::unexplained);
            // the first steps of the order, then the plain one: where does it begin to differ?
            size_t agrees = 0, others = order.size();
            while (others - agrees > 1) {
                const size_t m = agrees + (others - agrees) / 2;
                (differs(given, Order(order.begin(), order.begin() + long(m)), job, value) ? others : agrees) = m;
            }
            order.resize(others);
            order = smallest(given, one_alone(given, order, job, value), job, value);
            // perhaps another job differs first now
            const auto first = plain.results.first_difference(hybrid(given, order, job.frame).results, job.frame);
            if (!first || first->is(job)) break;
            job = *first;
        }
        found_.job = job, found_.out_of_order = order.size();
        const uint64_t value = plain.results.get(job);
        if (order.empty()) return finish(Verdict::unexplained);
        // The last of them is what makes it differ. Let it go back towards its place, a step at a time.
        const Order before(order.begin(), order.end() - 1);
        const Step last = order.back();
        const Order without = hybrid(given, before, job.frame).order, with = hybrid(given, order, job.frame).order;
        auto place = [](const Order &o, const Step &s) { return size_t(std::find_if(o.begin(), o.end(), [&](const Step &x) { return x.is(s); }) - o.begin()); };
        auto later = [&](size_t at) {
            Order w(without.begin(), without.begin() + long(at));
            return w.push_back(last), w;
        };
        size_t differing = place(with, last), agreeing = place(without, last); // its place, or the end
        if (differing >= with.size() || agreeing <= differing) return finish(Verdict::unexplained);
        while (agreeing - differing > 1) {
            const size_t m = differing + (agreeing - differing) / 2;
            (differs(given, later(m), job, value) ? differing : agreeing) = m;
        }
        // both once more, to be sure
        detail::Played one = hybrid(given, later(agreeing), job.frame, job), other = hybrid(given, later(differing), job.frame, job);
        found_.replays += 2;
        if (one.results.get(job) != value || other.results.get(job) == value) return finish(Verdict::unexplained);
        found_.early = last, found_.late = without[agreeing - 1];
        const size_t p = place(other.order, last);
        found_.neighbours = p + 1 < other.order.size() && p + 1 < one.order.size() && other.order[p + 1].is(found_.late) && one.order[p].is(found_.late) && one.order[p + 1].is(last)
            && std::equal(other.order.begin(), other.order.begin() + long(p), one.order.begin(), [](const Step &a, const Step &b) { return a.is(b); });
        found_.agreeing = std::move(one.order), found_.agreeing_log = std::move(one.log), found_.agreeing_value = one.value, found_.differing_value = other.value;
        differs_in(job, given, std::move(other));
        return finish(Verdict::order);
    }
};

} // namespace btjobs
