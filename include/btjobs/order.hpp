// Steps, orders of steps, and what each step of a run came to.
#pragma once
#include "board.hpp"
#include <map>
#include <optional>

namespace btjobs {

// A job's work from where it is taken up to where it is told, by its name, where `question` says how far it is: of a turn 0 is the frame's
// input and 1 the turn itself, of a think how many answers it has, of an answer its number. Or, of kind `show`, a frame that is shown.
struct Step {
    uint32_t kind, frame, index, question, worker;
    bool is(const Step &o) const { return kind == o.kind && frame == o.frame && index == o.index && question == o.question; }
    bool is(Kind k) const { return kind == uint32_t(k); }
    uint64_t number() const { return (uint64_t(kind) << 61) ^ (uint64_t(frame) << 40) ^ (uint64_t(index) << 12) ^ question; }
    std::string text() const {
        const std::string name = std::to_string(frame) + " " + std::to_string(index);
        switch (Kind(kind)) {
        case Kind::turn: return (question ? "the turn of frame " : "the input of frame ") + std::to_string(frame);
        case Kind::think: return "think " + name + (question ? " after " + std::to_string(question) + (question > 1 ? " answers" : " answer") : "");
        case Kind::answer: return "answer " + name + " " + std::to_string(question);
        case Kind::draw: return "draw " + name;
        default: return "the showing of frame " + std::to_string(frame);
        }
    }
    static Step show(uint32_t frame) { return {uint32_t(Kind::show), frame, 0, 0, 0}; }
};
using Order = std::vector<Step>;

// The places of a frame's steps in the plain order: the input, each think with all its answers before the next think, the turn, the draws,
// the showing.
struct Places {
    uint32_t agents, bands, parts; // parts: of a think, with its answers
    explicit Places(const Settings &n) : agents(n.agents), bands(n.bands), parts(2 * n.most_questions + 1) {}
    size_t thinks() const { return size_t(agents) * parts; }
    size_t count() const { return 3 + thinks() + bands; }
    size_t of(const Step &s) const {
        switch (Kind(s.kind)) {
        case Kind::turn: return s.question ? 1 + thinks() : 0;
        case Kind::think: return 1 + size_t(s.index) * parts + 2 * size_t(s.question);
        case Kind::answer: return 2 + size_t(s.index) * parts + 2 * size_t(s.question);
        case Kind::draw: return 2 + thinks() + s.index;
        default: return 2 + thinks() + bands;
        }
    }
    Step at(uint32_t frame, size_t place) const {
        if (place == 0) return {uint32_t(Kind::turn), frame, 0, 0, 0};
        if (place <= thinks()) {
            const size_t part = (place - 1) % parts;
            return {uint32_t(part % 2 ? Kind::answer : Kind::think), frame, uint32_t((place - 1) / parts), uint32_t(part / 2), 0};
        }
        if (place == 1 + thinks()) return {uint32_t(Kind::turn), frame, 0, 1, 0};
        if (place < 2 + thinks() + bands) return {uint32_t(Kind::draw), frame, uint32_t(place - 2 - thinks()), 0, 0};
        return Step::show(frame);
    }
};

// What each step of a run came to, as a number that isn't 0.
class Results {
    Places places_;
    std::vector<std::vector<uint64_t>> frames_;
public:
    explicit Results(const Settings &n) : places_(n) {}
    void put(const Step &s, uint64_t hash) {
        if (frames_.size() < s.frame) frames_.resize(s.frame);
        std::vector<uint64_t> &f = frames_[s.frame - 1];
        if (f.empty()) f.resize(places_.count());
        f[places_.of(s)] = hash;
    }
    uint64_t get(const Step &s) const { return s.frame <= frames_.size() && !frames_[s.frame - 1].empty() ? frames_[s.frame - 1][places_.of(s)] : 0; }
    // The first step, in the plain order, at which two runs differ, of the frames behind the first `from` and up to `to`.
    std::optional<Step> first_difference(const Results &o, uint32_t to, uint32_t from = 0) const {
        for (uint32_t f = from; f < to && f < frames_.size() && f < o.frames_.size(); f++)
            for (size_t p = 0; p < frames_[f].size() && p < o.frames_[f].size(); p++)
                if (frames_[f][p] != o.frames_[f][p]) return places_.at(f + 1, p);
        return {};
    }
};

// The steps of a log: each where it was told.
inline Order order_of(const Log &log) {
    Order order;
    std::map<std::pair<uint32_t, uint32_t>, uint32_t> asked; // by frame and agent, of the thinks that aren't over
    for (const Event &e : log) {
        if (e.kind == BTJOBS_EMIT) order.push_back(Step::show(e.job.frame));
        if (e.kind != BTJOBS_ASK && e.kind != BTJOBS_SPREAD && e.kind != BTJOBS_FINISH) continue;
        Step s{e.job.kind, e.job.frame, e.job.index, 0, e.worker};
        if (s.is(Kind::answer)) s.question = e.job.question;
        if (s.is(Kind::turn)) s.question = e.kind == BTJOBS_FINISH;
        if (s.is(Kind::think)) {
            s.question = asked[{s.frame, s.index}]++;
            if (e.kind == BTJOBS_FINISH) asked.erase({s.frame, s.index});
        }
        order.push_back(s);
    }
    return order;
}

} // namespace btjobs
