// The calls of btjobs.h with an owner and exceptions, and the numbers of a run.
#pragma once
#include "../btjobs.h"
#include <cstddef>
#include <cstdint>
#include <stdexcept>
#include <string>
#include <vector>

namespace btjobs {

// A run of T that somebody else owns, as std::span of C++20.
template <class T> class span {
    T *at_ = nullptr;
    size_t size_ = 0;
public:
    span() = default;
    span(T *at, size_t size) : at_(at), size_(size) {}
    T *begin() const { return at_; }
    T *end() const { return at_ + size_; }
    T *data() const { return at_; }
    size_t size() const { return size_; }
    bool empty() const { return size_ == 0; }
    T &operator[](size_t i) const { return at_[i]; }
};

// As Settings::frames: until the callback of `run` answers false.
inline constexpr uint32_t ENDLESS = UINT32_MAX;

struct Settings {
    uint32_t frames = 60;        // any number, or ENDLESS
    uint32_t agents = 1;         // thinks of a frame: any number
    uint32_t bands = 0;          // draws of a frame: any number
    uint32_t most_questions = 0; // that one think may ask in a frame
    uint32_t slots = 3;          // frames under way at once, 1 to 16
    uint32_t started = 64;       // turns and thinks that may have begun and not be over, 2 to 64
    uint32_t running = 64;       // answers and draws that may run at once, 1 to 64
    uint32_t season = 600;       // frames that are given to one board, 1 to 9999; behind them a new one goes on, and no job overlaps both
};

// A job by its name, as the board has it.
using Job = btjobs_job;
using Event = btjobs_event;
using Log = std::vector<Event>;

// The kinds of jobs by the names of a game's functions; and, of a step of an order, the showing of a frame.
enum class Kind : uint32_t { turn, think, answer, draw, show };

// What a call of the library refuses, or a log that isn't one of the game's. `status` is one of btjobs_status.
struct Error : std::runtime_error {
    uint32_t status;
    Error(const std::string &what, uint32_t status) : std::runtime_error(what), status(status) {}
};

class Board {
    btjobs_board held_{};
    static void check(uint32_t status, const char *call) {
        if (status != BTJOBS_OK) throw Error(std::string(call) + ": " + btjobs_status_text(status), status);
    }
public:
    // Of so many frames, at most 9999.
    Board(const Settings &n, uint32_t frames, uint32_t workers) { open(n, frames, workers); }
    ~Board() { btjobs_close(&held_); }
    Board(const Board &) = delete;
    Board &operator=(const Board &) = delete;

    void open(const Settings &n, uint32_t frames, uint32_t workers) {
        btjobs_close(&held_);
        const btjobs_numbers numbers{frames, n.agents, n.bands, workers, n.running, n.started, n.slots, n.most_questions};
        check(btjobs_open(&held_, &numbers), "the settings of a game");
    }
    // A job for an idle worker; false where there is none.
    bool take(uint32_t worker, Job &job) {
        const uint32_t status = btjobs_take(&held_, worker, &job);
        if (status == BTJOBS_NOTHING) return false;
        return check(status, "take"), true;
    }
    // This very job, new or ready; false where the worker may not.
    bool take_up(uint32_t worker, Job &job) {
        uint32_t step = 0, status = btjobs_start(&held_, worker, &job);
        if (status == BTJOBS_ILLEGAL) status = btjobs_resume(&held_, worker, &job, &step);
        if (status == BTJOBS_ILLEGAL) return false;
        check(status, "start");
        if (job.kind != BTJOBS_PATH) job.question = step;
        return true;
    }
    // Whether an idle worker would be given a job.
    bool may_take() {
        bool may = false;
        return btjobs_may_take(&held_, &may) == BTJOBS_OK && may;
    }
    // Whether the frame of the worker's input begins now, or waits for its slot.
    bool spread(uint32_t worker) {
        bool begun = false;
        return check(btjobs_spread(&held_, worker, &begun), "spread"), begun;
    }
    void ask(uint32_t worker) {
        Job answer;
        check(btjobs_ask(&held_, worker, &answer), "a think asks (more than settings.most_questions?)");
    }
    void finish(uint32_t worker) { check(btjobs_finish(&held_, worker), "finish"); }
    // The next frame is shown; false where it can't be yet.
    bool show(uint32_t &frame) { return btjobs_show(&held_, &frame) == BTJOBS_OK; }
    void stop() { btjobs_stop(&held_); }
    // What has happened.
    Log log() {
        size_t count = 0;
        btjobs_count(&held_, &count);
        Log all(count);
        if (count) btjobs_events(&held_, 0, all.data(), all.size(), &count);
        return all;
    }
    btjobs_board *raw() { return &held_; }
};

} // namespace btjobs
