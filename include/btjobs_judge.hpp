// btjobs_judge.hpp: is a scheduler of one's own right? Its jobs say what they do, in debug builds; the first event that no legal order
// has is named, with what it lacks. The judge changes nothing of how the scheduler runs. Calls may come from any thread.
//
//     btjobs::Judge judge(settings, [](const std::string &text) { std::fputs(text.c_str(), stderr), std::abort(); });
//     judge.begin(f);                         // the world that frame f starts from stands in its slot: its thinks may run
//     judge.start(judge.think(f, a));  ..  judge.finish(judge.think(f, a));
//     judge.start(judge.turn(f));      ..  judge.finish(judge.turn(f));      // makes the world of all thoughts
//     judge.start(judge.draw(f, b));   ..  judge.finish(judge.draw(f, b));
//     judge.show(f);                          // frame f is shown, and nobody reads its slot any more
// and where thinks ask: judge.ask(judge.think(f, a)) ends a think's first part; then start and finish of judge.answer(f, a, i); then start of
// the think again. Each call takes a lock for some hundred nanoseconds. What is illegal the proved board decides; what an event lacks is
// worked out beside it, and tested. A judge knows at most 9999 frames, and 64 jobs that run at once.
#pragma once
#include "btjobs/board.hpp"
#include <array>
#include <functional>
#include <map>
#include <mutex>
#include <set>
#include <sstream>

namespace btjobs {

class Judge {
    using Key = std::array<uint32_t, 4>;
    struct Frame { bool begun = false, turned = false; std::map<uint32_t, uint32_t> asked; std::set<uint32_t> thought, drawn; };
    std::mutex lock_;
    Settings n_;
    uint32_t workers_;
    Board board_;
    std::function<void(const std::string &)> report_;
    std::map<Key, uint32_t> runs_; // which worker stands for a job's thread
    std::vector<bool> busy_;
    std::map<uint32_t, Frame> frames_;
    std::set<Key> answered_;
    uint32_t shown_ = 0;
    std::string first_;
    uint64_t events_ = 0;

    static Key key(const Job &j) { return {j.kind, j.frame, j.index, j.kind == BTJOBS_PATH ? j.question : 0}; }
    static std::string text(const Job &j) {
        std::ostringstream o;
        static const char *kinds[] = {"the turn of frame ", "think ", "answer ", "draw "};
        o << kinds[j.kind] << j.frame;
        if (j.kind != BTJOBS_LOGIC) o << " " << j.index;
        if (j.kind == BTJOBS_PATH) o << " " << j.question;
        return o.str();
    }
    bool wrong(const std::string &what, const std::string &lacks) {
        first_ = "event " + std::to_string(events_) + " can't be: " + what + ", but " + lacks + "\n";
        if (report_) report_(first_);
        return false;
    }
    std::string not_begun(uint32_t f) {
        if (f == 0 || f > n_.frames) return "there is no such frame";
        if (f > 1 && f - 1 > shown_ && !frames_[f - 1].turned) return "the turn of frame " + std::to_string(f - 1) + " isn't over";
        if (f > shown_ + n_.slots) return "its slot is still that of frame " + std::to_string(f - n_.slots) + ", which isn't shown";
        return {};
    }
    std::string lacks(const Job &j) {
        Frame &f = frames_[j.frame];
        std::ostringstream o;
        if (runs_.count(key(j))) return "it runs already";
        if (j.frame && j.frame <= shown_) return "frame " + std::to_string(j.frame) + " is shown already";
        if (!f.begun) return "frame " + std::to_string(j.frame) + " hasn't begun";
        switch (Kind(j.kind)) {
        case Kind::turn:
            if (f.turned) return "it is over";
            for (uint32_t a = 0; a < n_.agents; a++)
                if (!f.thought.count(a)) return o << "think " << j.frame << " " << a << " isn't over" << (n_.agents - f.thought.size() > 1 ? ", nor are " + std::to_string(n_.agents - f.thought.size() - 1) + " more" : ""), o.str();
            break;
        case Kind::think:
            if (f.thought.count(j.index)) return "it is over";
            if (uint32_t asked = f.asked[j.index])
                if (!answered_.count({BTJOBS_PATH, j.frame, j.index, asked - 1})) return o << "answer " << j.frame << " " << j.index << " " << asked - 1 << ", for which it waits, isn't over", o.str();
            break;
        case Kind::answer:
            if (j.question >= f.asked[j.index]) return "its think hasn't asked it";
            return "it is over";
        default:
            if (!f.turned) return "the turn of frame " + std::to_string(j.frame) + " isn't over";
            if (f.drawn.count(j.index)) return "it is over";
        }
        return "there is no such job, or more jobs run at once than the settings have workers and fibers";
    }
public:
    explicit Judge(const Settings &n, std::function<void(const std::string &)> report = {}, uint32_t workers = 64)
        : n_(n), workers_(workers), board_(n, n.frames, workers), report_(std::move(report)), busy_(workers) {}

    static Job turn(uint32_t frame) { return {BTJOBS_LOGIC, frame, 0, 1}; }
    static Job think(uint32_t frame, uint32_t agent) { return {BTJOBS_THINK, frame, agent, 0}; }
    static Job answer(uint32_t frame, uint32_t agent, uint32_t question) { return {BTJOBS_PATH, frame, agent, question}; }
    static Job draw(uint32_t frame, uint32_t band) { return {BTJOBS_DRAW, frame, band, 0}; }

    // Whether all was legal so far; the first event that wasn't; how many there were.
    bool ok() { std::lock_guard<std::mutex> hold(lock_); return first_.empty(); }
    std::string first_wrong() { std::lock_guard<std::mutex> hold(lock_); return first_; }
    uint64_t events() { std::lock_guard<std::mutex> hold(lock_); return events_; }

    bool begin(uint32_t frame) {
        std::lock_guard<std::mutex> hold(lock_);
        if (!first_.empty()) return false;
        events_++;
        const std::string what = "frame " + std::to_string(frame) + " begins";
        if (frames_[frame].begun || (frame && frame <= shown_)) return wrong(what, "it has begun before");
        const std::string lacks = not_begun(frame);
        if (!lacks.empty()) return wrong(what, lacks);
        Job j{BTJOBS_LOGIC, frame, 0, 0};
        const uint32_t w = idle();
        if (w == workers_ || !board_.take_up(w, j) || !board_.spread(w)) return wrong(what, "more jobs run at once than the settings have workers and fibers");
        return frames_[frame].begun = true;
    }
    bool start(const Job &job) {
        std::lock_guard<std::mutex> hold(lock_);
        if (!first_.empty()) return false;
        events_++;
        Job j = job;
        const uint32_t w = idle();
        if (runs_.count(key(job)) || w == workers_ || (job.kind == BTJOBS_LOGIC && !frames_[job.frame].begun) || !board_.take_up(w, j)) return wrong(text(job) + " starts", lacks(job));
        busy_[w] = true, runs_[key(job)] = w;
        return true;
    }
    bool ask(const Job &job) {
        std::lock_guard<std::mutex> hold(lock_);
        if (!first_.empty()) return false;
        events_++;
        auto at = runs_.find(key(job));
        if (at == runs_.end()) return wrong(text(job) + " asks", "it doesn't run");
        try { board_.ask(at->second); } catch (const Error &) { return wrong(text(job) + " asks", "it has asked as often as settings.most_questions"); }
        frames_[job.frame].asked[job.index]++, busy_[at->second] = false, runs_.erase(at);
        return true;
    }
    bool finish(const Job &job) {
        std::lock_guard<std::mutex> hold(lock_);
        if (!first_.empty()) return false;
        events_++;
        auto at = runs_.find(key(job));
        if (at == runs_.end()) return wrong(text(job) + " is over", "it doesn't run");
        board_.finish(at->second);
        Frame &f = frames_[job.frame];
        if (job.kind == BTJOBS_LOGIC) f.turned = true;
        if (job.kind == BTJOBS_THINK) f.thought.insert(job.index);
        if (job.kind == BTJOBS_PATH) answered_.insert(key(job));
        if (job.kind == BTJOBS_DRAW) f.drawn.insert(job.index);
        busy_[at->second] = false, runs_.erase(at);
        return true;
    }
    bool show(uint32_t frame) {
        std::lock_guard<std::mutex> hold(lock_);
        if (!first_.empty()) return false;
        events_++;
        const std::string what = "frame " + std::to_string(frame) + " is shown";
        Frame &f = frames_[frame];
        uint32_t shown = 0;
        if (frame != shown_ + 1) return wrong(what, "the next to be shown is frame " + std::to_string(shown_ + 1));
        if (!f.turned) return wrong(what, "its turn isn't over");
        for (uint32_t b = 0; b < n_.bands; b++)
            if (!f.drawn.count(b)) return wrong(what, text(draw(frame, b)) + " isn't over");
        if (!board_.show(shown)) return wrong(what, "it isn't drawn");
        frames_.erase(frame);
        for (auto at = answered_.begin(); at != answered_.end();) at = (*at)[1] == frame ? answered_.erase(at) : std::next(at);
        return shown_ = shown, true;
    }
private:
    uint32_t idle() const { uint32_t w = 0; while (w < workers_ && busy_[w]) w++; return w; }
};

} // namespace btjobs
