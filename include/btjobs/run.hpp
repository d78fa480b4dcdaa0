// Runs of a game: on threads, on one, and in the order of a log.
#pragma once
#include "store.hpp"
#include "wait.hpp"
#include <algorithm>
#include <chrono>
#include <exception>
#include <functional>

namespace btjobs {

template <class G> struct Ended {
    typename G::World world; // of the last frame that was shown
    uint32_t frames;         // how many were shown
    uint32_t workers;        // of the board: how many the log names
    Log log;                 // of the frames behind `before`: plays the same order again
    uint32_t before;         // 0, but of an endless run: the frames of the seasons before its last one
    std::shared_ptr<const typename G::World> began; // the world behind frame `before`
};

// Called for each frame, one after another: the world that its turn made, and its bands. It may answer a bool: false ends the run behind
// this frame.
template <class G> class OnFrame {
    std::function<bool(uint32_t, const typename G::World &, span<const BandOf<G>>)> call_;
public:
    OnFrame() = default;
    template <class F, class R = std::invoke_result_t<F &, uint32_t, const typename G::World &, span<const BandOf<G>>>> OnFrame(F f) {
        if constexpr (std::is_void_v<R>) call_ = [f = std::move(f)](uint32_t frame, const typename G::World &w, span<const BandOf<G>> b) mutable { return f(frame, w, b), true; };
        else call_ = std::move(f);
    }
    bool operator()(uint32_t frame, const typename G::World &w, span<const BandOf<G>> bands) { return !call_ || call_(frame, w, bands); }
};

// How a run uses threads.
struct Threads {
    uint32_t count = 1;     // threads, the caller's among them: 1 to 64
    uint32_t at_once = 0;   // jobs that a thread takes up under one hold of the lock; 0: as many as last some microseconds, up to 8
    uint32_t look_us = 100; // for so many microseconds a thread that finds no job looks again before it sleeps; 0 where there are fewer processors
    Threads(uint32_t count = 1) : count(count) {}
    Threads(uint32_t count, uint32_t at_once, uint32_t look_us) : count(count), at_once(at_once), look_us(look_us) {}
};

namespace detail {

// How many jobs a thread takes up at once: so many as last some 8 us, by the time that the last ones took.
class Batch {
    const uint32_t most_, fixed_;
    uint32_t now_, until_measured_ = 0;
    std::chrono::steady_clock::time_point began_;
    bool measures_ = false;
public:
    Batch(uint32_t most, uint32_t fixed) : most_(most), fixed_(fixed), now_(fixed ? fixed : 1) {}
    uint32_t most() const { return now_; }
    void begins() {
        measures_ = !fixed_ && most_ > 1 && until_measured_-- == 0;
        if (measures_) began_ = std::chrono::steady_clock::now();
    }
    void ends(uint32_t jobs) {
        if (!measures_) return;
        const uint64_t ns = uint64_t(std::chrono::duration_cast<std::chrono::nanoseconds>(std::chrono::steady_clock::now() - began_).count()) / jobs;
        now_ = uint32_t(std::max<uint64_t>(1, std::min<uint64_t>(most_, 8000 / (ns + 1))));
        until_measured_ = 15;
    }
};

template <class G> class Run {
    const G &game_;
    const Settings n_;
    const Threads threads_;
    const uint32_t each_; // workers of the board that a thread stands for
    Board board_;
    Store<G> store_;
    OnFrame<G> &on_frame_;
    Waiting waiting_;
    std::exception_ptr thrown_;
    std::shared_ptr<const typename G::World> last_, began_; // shown last; at the start of this season
    uint32_t shown_ = 0, of_season_ = 0;
    bool may_show_ = false, over_ = false; // may_show_: a turn or a draw is over since frames were shown last
    Log log_;

    struct Work { Job job; Told told; Slot<G> next; };

    static uint32_t each_of(const Threads &t) { return t.at_once ? t.at_once : std::max(1u, std::min(8u, 64u / std::max(1u, t.count))); }
    static uint32_t look_of(const Threads &t) {
        const uint32_t processors = std::thread::hardware_concurrency();
        return t.count < 2 || (processors && processors < t.count) ? 0 : t.look_us;
    }
    uint32_t season_of(uint32_t before) const { return n_.frames == ENDLESS ? n_.season : std::min(n_.season, n_.frames - before); }
    void keep_log() {
        if (n_.frames == ENDLESS) log_.clear();
        const uint32_t before = store_.before();
        for (Event e : board_.log()) {
            if (e.kind != BTJOBS_STOP) e.job.frame += before, log_.push_back(e);
        }
    }
    // Shows what can be shown, and begins the next season behind the last frame of one. The lock is held.
    void show() {
        uint32_t frame;
        while (!over_ && board_.show(frame)) {
            bool on = true;
            store_.show(frame, [&](uint32_t f, const auto &w, auto bands) { last_ = w, shown_ = f, on = on_frame_(f, *w, bands); });
            if (!on || shown_ == n_.frames) over_ = true;
            else if (frame == of_season_) next_season();
            else continue;
            waiting_.wake_all();
        }
        may_show_ = false;
    }
    void next_season() {
        keep_log();
        store_.next_season(of_season_);
        began_ = store_.world(), of_season_ = season_of(store_.before());
        board_.open(n_, of_season_, threads_.count * each_);
    }
    void loop(uint32_t thread) {
        std::vector<Work> all(each_);
        Batch batch(each_, threads_.at_once);
        auto hold = waiting_.hold();
        bool looked = false, begun = false;
        while (!thrown_ && !over_) {
            uint32_t taken = 0;
            while (taken < batch.most() && board_.take(thread * each_ + taken, all[taken].job) && all[taken++].job.kind != BTJOBS_LOGIC) {}
            if (!taken) {
                if (!looked) looked = !waiting_.look(hold);
                else waiting_.sleep(hold), looked = false;
                continue;
            }
            looked = false;
            if (waiting_.any_asleep() && board_.may_take()) waiting_.wake_one(); // who is woken wakes the next
            waiting_.unlock(hold);
            if (begun) for (Work &w : all) w.next.start = w.next.turned = nullptr; // worlds of frames that are over
            batch.begins();
            for (uint32_t i = 0; i < taken; i++) all[i].told = store_.work(all[i].job, all[i].next);
            batch.ends(taken);
            waiting_.lock(hold);
            if (thrown_ || over_) break;
            bool news = false;
            begun = false;
            for (uint32_t i = 0; i < taken; i++) {
                const Job &j = all[i].job;
                begun |= store_.tell(board_, thread * each_ + i, j, all[i].told, all[i].next);
                may_show_ |= j.kind == BTJOBS_DRAW || j.kind == BTJOBS_LOGIC;
                news |= j.kind != BTJOBS_THINK || all[i].told == Told::ask; // the end of a think leads to nothing but, of the last, the turn
            }
            if (may_show_) show();
            if (begun && waiting_.any_asleep()) waiting_.wake_all();
            else if (news) waiting_.tell();
        }
    }
    void guarded(uint32_t thread) {
        try {
            loop(thread);
        } catch (...) {
            auto hold = waiting_.hold();
            if (!thrown_) thrown_ = std::current_exception();
            board_.stop();
        }
        auto hold = waiting_.hold();
        waiting_.wake_all();
    }
public:
    Run(const G &game, const Settings &n, const Threads &t, OnFrame<G> &on_frame)
        : game_(game), n_(n), threads_(t), each_(each_of(t)), board_(n, season_of(0), t.count * each_), store_(game, n_), on_frame_(on_frame), waiting_(t.count, look_of(t)) {
        if (!n.season) throw Error("settings.season is at least one frame", BTJOBS_LIMITS);
        last_ = began_ = store_.world(), of_season_ = season_of(0), over_ = n_.frames == 0;
    }
    Ended<G> run() {
        std::vector<std::thread> others;
        try {
            for (uint32_t t = 1; t < threads_.count; t++) others.emplace_back([this, t] { guarded(t); });
        } catch (...) { // no thread to be had: those that are there play it
        }
        guarded(0);
        for (std::thread &t : others) t.join();
        if (thrown_) std::rethrow_exception(thrown_);
        const uint32_t before = store_.before();
        keep_log();
        const bool whole = n_.frames != ENDLESS;
        return {*last_, shown_, threads_.count * each_, std::move(log_), whole ? 0 : before, whole ? nullptr : began_};
    }
};

} // namespace detail

// Plays a game on threads. An exception of a job, or of `on_frame`, stops the run and comes out of here.
template <class G> Ended<G> run(const G &game, const Settings &settings, Threads threads = {}, OnFrame<G> on_frame = {}) {
    return detail::Run<G>(game, settings, threads, on_frame).run();
}

// Plays a game on this thread, in the order of one worker.
template <class G> Ended<G> run_serial(const G &game, const Settings &settings, OnFrame<G> on_frame = {}) {
    return run(game, settings, Threads(1, 1, 0), std::move(on_frame));
}

// Plays a log's order again, on this thread, each job whole where it is told. Throws an Error with the first event that isn't the game's:
// a think that asked where it is over now, or the other way round. `before` and `began` are those of an endless run that has ended.
template <class G> Ended<G> replay(const G &game, const Settings &n, uint32_t workers, const Log &log, OnFrame<G> on_frame = {}, uint32_t before = 0,
    std::shared_ptr<const typename G::World> began = nullptr) {
    auto season_of = [&](uint32_t from) { return n.frames == ENDLESS ? n.season : std::min(n.season, n.frames - from); };
    uint32_t of_season = season_of(before), shown = before;
    Board board(n, of_season, workers);
    Store<G> store(game, n, began);
    store.next_season(before);
    auto last = store.world();
    std::vector<std::optional<Job>> runs(workers);
    std::vector<Slot<G>> next(workers);
    for (size_t at = 0; at < log.size(); at++) {
        auto must = [&](bool is) { if (!is) throw Error("event " + std::to_string(at) + " of the log isn't what the game does", BTJOBS_ILLEGAL); };
        Event e = log[at];
        if (e.kind == BTJOBS_STOP) break;
        must(e.job.frame > store.before());
        if (e.job.frame - store.before() > of_season) { // the first event of the next season
            must(shown == store.before() + of_season);
            store.next_season(of_season), of_season = season_of(store.before());
            board.open(n, of_season, workers);
        }
        e.job.frame -= store.before();
        uint32_t frame;
        if (e.kind == BTJOBS_EMIT) {
            must(board.show(frame) && frame == e.job.frame);
            bool on = true;
            store.show(frame, [&](uint32_t f, const auto &w, auto b) { last = w, shown = f, on = on_frame(f, *w, b); });
            if (!on) break;
            continue;
        }
        must(e.worker < workers);
        std::optional<Job> &job = runs[e.worker];
        const bool takes = e.kind == BTJOBS_START || e.kind == BTJOBS_RESUME;
        must(takes != job.has_value());
        if (takes) {
            job = e.job;
            must(board.take_up(e.worker, *job));
            continue;
        }
        const Told told = store.work(*job, next[e.worker]);
        const bool begins = e.kind == BTJOBS_SPREAD || e.kind == BTJOBS_HOLD;
        must(told == (begins ? Told::spread : e.kind == BTJOBS_ASK ? Told::ask : Told::finish));
        store.tell(board, e.worker, *job, told, next[e.worker]);
        job.reset();
    }
    return {*last, shown, workers, log, before, began};
}
template <class G> Ended<G> replay(const G &game, const Settings &settings, const Ended<G> &ended, OnFrame<G> on_frame = {}) {
    return replay(game, settings, ended.workers, ended.log, std::move(on_frame), ended.before, ended.began);
}

} // namespace btjobs
