// One run of a game, a step at a time, in any legal order.
#pragma once
#include "hash.hpp"
#include "log.hpp"
#include "order.hpp"
#include "store.hpp"
#include <queue>

namespace btjobs {

class Random {
    uint64_t x_;
public:
    explicit Random(uint64_t seed) : x_(seed * 0x9e3779b97f4a7c15u + 1) {}
    uint64_t next() {
        uint64_t z = x_ += 0x9e3779b97f4a7c15u;
        z = (z ^ z >> 30) * 0xbf58476d1ce4e5b9u, z = (z ^ z >> 27) * 0x94d049bb133111ebu;
        return z ^ z >> 31;
    }
    size_t below(size_t n) { return size_t(next() % n); }
};

// Steps of the frames under way: the first and the last of them by name, the one of the highest rank, and any by a number, each without going
// through the others.
class StepSet {
    Places places_;
    uint32_t ring_;
    size_t words_, tops_;
    std::vector<uint64_t> bits_, top_; // by frame: a bit for each place, and a bit for each word of those
    std::vector<uint32_t> at_;         // where in all_
    std::vector<Step> all_;
    std::optional<uint64_t> seed_; // of ranks
    struct Ranked { uint64_t rank; Step step; bool operator<(const Ranked &o) const { return rank < o.rank; } };
    mutable std::priority_queue<Ranked> ranked_; // those that are gone leave it when they come up

    size_t row(uint32_t frame) const { return frame % ring_; }
#if defined(__GNUC__)
    static unsigned low(uint64_t x) { return unsigned(__builtin_ctzll(x)); }
    static unsigned high(uint64_t x) { return 63 - unsigned(__builtin_clzll(x)); }
#else
    static unsigned low(uint64_t x) { unsigned i = 0; while (!(x >> i & 1)) i++; return i; }
    static unsigned high(uint64_t x) { unsigned i = 63; while (!(x >> i & 1)) i--; return i; }
#endif
    const Step &in(size_t row, size_t word, unsigned bit) const { return all_[at_[row * places_.count() + word * 64 + bit]]; }
public:
    StepSet(const Settings &n) : places_(n), ring_(n.slots), words_((places_.count() + 63) / 64), tops_((words_ + 63) / 64) {
        bits_.resize(ring_ * words_), top_.resize(ring_ * tops_), at_.resize(ring_ * places_.count());
    }
    void rank_by(uint64_t seed) { seed_ = seed; }
    size_t size() const { return all_.size(); }
    const Step &operator[](size_t i) const { return all_[i]; }
    bool has(const Step &s) const {
        const size_t p = places_.of(s), w = row(s.frame) * words_ + p / 64;
        return (bits_[w] >> p % 64 & 1) && all_[at_[row(s.frame) * places_.count() + p]].frame == s.frame;
    }
    void insert(const Step &s) {
        const size_t p = places_.of(s), r = row(s.frame);
        bits_[r * words_ + p / 64] |= uint64_t(1) << p % 64, top_[r * tops_ + p / 4096] |= uint64_t(1) << p / 64 % 64;
        at_[r * places_.count() + p] = uint32_t(all_.size()), all_.push_back(s);
        if (seed_) ranked_.push({Random(*seed_ ^ s.number()).next(), s});
    }
    void erase(const Step &s) {
        const size_t p = places_.of(s), r = row(s.frame), at = at_[r * places_.count() + p];
        if (!(bits_[r * words_ + p / 64] &= ~(uint64_t(1) << p % 64))) top_[r * tops_ + p / 4096] &= ~(uint64_t(1) << p / 64 % 64);
        all_[at] = all_.back(), all_.pop_back();
        if (at < all_.size()) at_[row(all_[at].frame) * places_.count() + places_.of(all_[at])] = uint32_t(at);
    }
    // By name, of the frames behind those that are shown.
    const Step *first(uint32_t shown) const {
        for (uint32_t f = shown + 1; f <= shown + ring_; f++)
            for (size_t t = 0, r = row(f); t < tops_; t++)
                if (uint64_t top = top_[r * tops_ + t]) {
                    const size_t w = t * 64 + low(top);
                    return &in(r, w, low(bits_[r * words_ + w]));
                }
        return nullptr;
    }
    const Step *last(uint32_t shown) const {
        for (uint32_t f = shown + ring_; f > shown; f--)
            for (size_t t = tops_, r = row(f); t--;)
                if (uint64_t top = top_[r * tops_ + t]) {
                    const size_t w = t * 64 + high(top);
                    return &in(r, w, high(bits_[r * words_ + w]));
                }
        return nullptr;
    }
    const Step *highest(uint64_t &rank) const {
        while (!ranked_.empty() && !has(ranked_.top().step)) ranked_.pop();
        return ranked_.empty() ? nullptr : (rank = ranked_.top().rank, &ranked_.top().step);
    }
};

template <class G> class Player {
    const G &game_;
    const Given given_;
    const Places places_;
    Board board_;
    Store<G> store_;
    StepSet fresh_, ready_; // what may be taken up: what wants a large fiber for it, and what has one or wants none
    struct Left { uint32_t thinks, draws; bool turned; };
    std::vector<Left> left_;    // of the frames under way, by slot
    uint32_t started_ = 0;      // large fibers in use
    uint32_t shown_ = 0, input_ = 0; // the next frame's input, while its slot is another's; 0: none
    Slot<G> next_;

    Left &left(uint32_t frame) { return left_[frame % given_.settings.slots]; }
    bool may_start() const { return started_ < given_.settings.started; }
    void may_begin(uint32_t frame) {
        if (frame > given_.settings.frames) return;
        if (frame > shown_ + given_.settings.slots) input_ = frame;
        else fresh_.insert({uint32_t(Kind::turn), frame, 0, 0, 0}), left(frame) = {given_.settings.agents, given_.settings.bands, false}, input_ = 0;
    }
    void done(const Step &s, uint64_t hash) { order.push_back(s), results.put(s, hash); }
public:
    Order order;                 // played so far
    Results results;             // of it
    std::optional<Step> watched; // of this step what it came to is kept
    std::string value;

    Player(const G &game, const Given &given) : game_(game), given_(given), places_(given.settings), board_(given.settings, given.settings.frames, given.workers),
        store_(game, given_.settings), fresh_(given.settings), ready_(given.settings), left_(given.settings.slots), results(given.settings) {
        may_begin(1);
    }
    uint32_t shown() const { return shown_; }
    bool is_done(const Step &s) const { return results.get(s) != 0; }
    bool is_over() const { return shown_ == given_.settings.frames; }
    Log log() { return board_.log(); }

    // What may be taken up: how many steps, and one of them by a number, by name, or by a rank that a seed gives each.
    size_t open() const { return ready_.size() + (may_start() ? fresh_.size() : 0); }
    Step open_at(size_t i) const { return i < ready_.size() ? ready_[i] : fresh_[i - ready_.size()]; }
    std::optional<Step> first() const { return better(ready_.first(shown_), may_start() ? fresh_.first(shown_) : nullptr, true); }
    std::optional<Step> last() const { return better(ready_.last(shown_), may_start() ? fresh_.last(shown_) : nullptr, false); }
    void rank_by(uint64_t seed) {
        fresh_.rank_by(seed), ready_.rank_by(seed);
        for (size_t i = fresh_.size(); i--;) { const Step s = fresh_[i]; fresh_.erase(s), fresh_.insert(s); }
    }
    std::optional<Step> highest() const {
        uint64_t of_ready = 0, of_fresh = 0;
        const Step *one = ready_.highest(of_ready), *other = may_start() ? fresh_.highest(of_fresh) : nullptr;
        if (!one || (other && of_fresh > of_ready)) one = other;
        return one ? std::optional<Step>(*one) : std::nullopt;
    }

    // Shows the next frame, if it is ready.
    bool show() {
        if (is_over() || !left(shown_ + 1).turned || left(shown_ + 1).draws) return false;
        uint32_t frame;
        if (!board_.show(frame)) throw Error("the board refuses to show frame " + std::to_string(shown_ + 1), BTJOBS_ILLEGAL);
        shown_ = frame, left(frame).turned = false;
        done(Step::show(frame), 1);
        store_.show(frame, [&](uint32_t f, const auto &, auto bands) {
            if constexpr (detail::shown_of<G, BandOf<G>>::any) results.put(Step::show(f), came(Step::show(f), game_.show(f, bands)));
            (void)f, (void)bands;
        });
        if (input_) may_begin(input_);
        return true;
    }
    // Plays this step whole, if it is legal now. An exception of the job's comes out, and its step is the last of `order`.
    bool play(const Step &s) {
        if (s.is(Kind::show)) return s.frame == shown_ + 1 && show();
        const bool starts = s.question == 0 && (s.is(Kind::think) || s.is(Kind::turn));
        StepSet &set = starts ? fresh_ : ready_;
        if (!set.has(s) || (starts && !may_start())) return false;
        Job job{s.kind, s.frame, s.index, s.question};
        if (!board_.take_up(s.worker, job)) throw Error("the board refuses " + s.text(), BTJOBS_ILLEGAL);
        set.erase(s), started_ += starts;
        done(s, 2);
        const Told told = store_.work(job, next_);
        results.put(s, came_to(s, told));
        store_.tell(board_, s.worker, job, told, next_);
        follow(s, told);
        return true;
    }
    // The next step of the plain order; false where all is shown.
    bool plain() {
        if (is_over()) return false;
        if (show()) return true;
        auto s = first();
        if (!s || !play(*s)) throw Error("the board is stuck", BTJOBS_ILLEGAL);
        return true;
    }
private:
    // What may be taken up now that this step is over.
    void follow(const Step &s, Told told) {
        const Settings &n = given_.settings;
        const bool over = told == Told::finish;
        switch (Kind(s.kind)) {
        case Kind::think:
            if (!over) return ready_.insert({uint32_t(Kind::answer), s.frame, s.index, s.question, 0});
            started_--;
            if (--left(s.frame).thinks == 0) ready_.insert({uint32_t(Kind::turn), s.frame, 0, 1, 0});
            return;
        case Kind::answer: return ready_.insert({uint32_t(Kind::think), s.frame, s.index, s.question + 1, 0});
        case Kind::draw: left(s.frame).draws--; return;
        default:
            if (!over) {
                for (uint32_t a = 0; a < n.agents; a++) fresh_.insert({uint32_t(Kind::think), s.frame, a, 0, 0});
                if (!n.agents) ready_.insert({uint32_t(Kind::turn), s.frame, 0, 1, 0});
                return;
            }
            started_--, left(s.frame).turned = true;
            for (uint32_t b = 0; b < n.bands; b++) ready_.insert({uint32_t(Kind::draw), s.frame, b, 0, 0});
            may_begin(s.frame + 1);
        }
    }
    std::optional<Step> better(const Step *one, const Step *other, bool first) const {
        if (!one || !other) return one ? std::optional<Step>(*one) : other ? std::optional<Step>(*other) : std::nullopt;
        const bool before = one->frame != other->frame ? one->frame < other->frame : places_.of(*one) < places_.of(*other);
        return before == first ? *one : *other;
    }
    template <class T> uint64_t came(const Step &s, const T &x) {
        if (watched && watched->is(s)) value = detail::text_of(x);
        return hash_of(x);
    }
    uint64_t came_to(const Step &s, Told told) {
        if (told == Told::spread) return came(s, next_.signals);
        Slot<G> &slot = store_.at(s.frame);
        switch (Kind(s.kind)) {
        case Kind::turn: return came(s, *slot.turned);
        case Kind::answer: return came(s, slot.answers[s.index].back());
        case Kind::draw: return came(s, *slot.bands[s.index]);
        default: break;
        }
        if constexpr (asks<G>)
            if (told == Told::ask) {
                const uint64_t hash = came(s, *slot.question[s.index]) ^ 0x5555;
                if (watched && watched->is(s)) value = "asks " + value;
                return hash;
            }
        return came(s, slot.thoughts[s.index]);
    }
};

} // namespace btjobs
