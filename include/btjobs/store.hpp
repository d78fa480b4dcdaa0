// The values of a run, by slot. The board says when a job may run; what it reads and where it writes is here, and nowhere else.
#pragma once
#include "game.hpp"
#include <memory>
#include <optional>

namespace btjobs {

// Of one frame: what it starts from, and what its jobs came to. A job writes its own place and no other.
template <class G> struct Slot {
    std::shared_ptr<const typename G::World> start, turned;
    SignalsOf<G> signals{};
    std::unique_ptr<typename G::Thought[]> thoughts;    // by agent; no vector, for a vector<bool> would share bits
    std::vector<std::vector<AnswerOf<G>>> answers;      // by agent, in the order asked
    std::vector<std::optional<QuestionOf<G>>> question; // by agent, the one that is asked
    std::vector<std::optional<BandOf<G>>> bands;
};

// How a job's work ended, besides what it wrote.
enum class Told { spread, ask, finish };

// Frames are counted from 1 in each season, as the board counts them; the game is told those of the whole run.
template <class G> class Store {
    const G &game_;
    const Settings &n_;
    std::vector<Slot<G>> slots_;
    std::shared_ptr<const typename G::World> world_; // of the newest turn
    uint32_t seasons_ = 0;                           // frames of the seasons before this one
public:
    Store(const G &game, const Settings &n, std::shared_ptr<const typename G::World> world = nullptr) : game_(game), n_(n), slots_(n.slots), world_(std::move(world)) {
        check_game<G>();
        if (n.bands && !detail::band_of<G>::any) throw Error("settings.bands, and the game has no draw(world, band)", BTJOBS_LIMITS);
        if (!world_) world_ = std::make_shared<const typename G::World>(game.start());
    }
    Slot<G> &at(uint32_t frame) { return slots_[frame % n_.slots]; }
    const std::shared_ptr<const typename G::World> &world() const { return world_; }
    uint32_t before() const { return seasons_; }
    void next_season(uint32_t frames) { seasons_ += frames; }

    // The work of a job, for which no lock is held. `next` is of an input, until its frame's slot is free.
    Told work(const Job &j, Slot<G> &next) {
        if (j.kind == BTJOBS_LOGIC && j.question == 0) return prepare(seasons_ + j.frame, next), Told::spread;
        Slot<G> &s = at(j.frame);
        if (j.kind == BTJOBS_LOGIC) {
            const Start<G> start{seasons_ + j.frame, *s.start, s.signals};
            s.turned = std::make_shared<const typename G::World>(game_.turn(start, {s.thoughts.get(), n_.agents}));
            return Told::finish;
        }
        if (j.kind == BTJOBS_DRAW) {
            if constexpr (detail::band_of<G>::any) s.bands[j.index].emplace(game_.draw(*s.turned, j.index));
            return Told::finish;
        }
        const View<G> v{{seasons_ + j.frame, *s.start, s.signals}, j.index};
        if constexpr (asks<G>) {
            if (j.kind == BTJOBS_PATH) return s.answers[j.index].push_back(game_.answer(v, *s.question[j.index])), Told::finish;
            auto is = game_.think(v, span<const AnswerOf<G>>(s.answers[j.index].data(), s.answers[j.index].size()));
            if (is.index() == 1) return s.question[j.index].emplace(std::get<1>(std::move(is))), Told::ask;
            s.thoughts[j.index] = std::get<0>(std::move(is));
        } else
            s.thoughts[j.index] = game_.think(v);
        return Told::finish;
    }
    // Tells the board; the board's lock is held. True where a frame has begun. What is to be let go is then in `next`, where the next input
    // finds it, without the lock.
    bool tell(Board &board, uint32_t worker, const Job &j, Told told, Slot<G> &next) {
        if (told == Told::ask) return board.ask(worker), false;
        if (told == Told::spread) {
            if (!board.spread(worker)) return false;
            next.start = world_, std::swap(at(j.frame), next);
            return true;
        }
        if (j.kind == BTJOBS_LOGIC) world_ = at(j.frame).turned;
        return board.finish(worker), false;
    }
    // Hands out the world and the bands of a frame that is shown now, before its slot is another's.
    template <class F> void show(uint32_t frame, F &&use) {
        Slot<G> &s = at(frame);
        std::vector<BandOf<G>> bands;
        bands.reserve(s.bands.size());
        for (auto &b : s.bands) bands.push_back(std::move(*b));
        use(seasons_ + frame, s.turned, span<const BandOf<G>>(bands.data(), bands.size()));
    }
private:
    // A slot's arrays are used again: each place is written before a job may read it.
    void prepare(uint32_t frame, Slot<G> &s) {
        s.start = nullptr, s.turned = nullptr;
        if constexpr (!std::is_same_v<SignalsOf<G>, None>) s.signals = game_.signals(frame);
        if (!s.thoughts) s.thoughts.reset(new typename G::Thought[n_.agents]());
        if constexpr (asks<G>) {
            s.answers.resize(n_.agents), s.question.resize(n_.agents);
            for (auto &a : s.answers) a.clear();
        }
        s.bands.clear(), s.bands.resize(n_.bands);
    }
};

} // namespace btjobs
