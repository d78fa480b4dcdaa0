// How threads wait for one another: a lock that is tried for a moment before a thread sleeps on it, and news that are looked for before
// a thread sleeps.
#pragma once
#include "board.hpp"
#include <atomic>
#include <chrono>
#include <condition_variable>
#include <cstdint>
#include <mutex>
#include <thread>

namespace btjobs {
namespace detail {

inline void relax() {
#if defined(__GNUC__) && (defined(__x86_64__) || defined(__i386__))
    __builtin_ia32_pause();
#elif defined(__GNUC__) && defined(__aarch64__)
    __asm__ __volatile__("yield");
#else
    std::this_thread::yield();
#endif
}

class Waiting {
    std::mutex lock_;
    std::condition_variable news_;
    std::atomic<uint32_t> count_{0}; // of news; written under the lock
    uint32_t asleep_ = 0;            // under the lock
    const uint32_t look_us_;
    const bool alone_;
public:
    using Hold = std::unique_lock<std::mutex>;
    // A thread that is alone takes no lock.
    Waiting(uint32_t threads, uint32_t look_us) : look_us_(look_us), alone_(threads < 2) {}

    Hold hold() {
        Hold h(lock_, std::defer_lock);
        lock(h);
        return h;
    }
    // A hold is short, a sleep long: so a thread first tries for a moment.
    void lock(Hold &h) {
        if (alone_) return;
        for (uint32_t i = 0; i < 64 && look_us_; i++) {
            if (h.try_lock()) return;
            for (uint32_t k = 0; k < (1u << (i < 4 ? i : 4)); k++) relax();
        }
        h.lock();
    }
    void unlock(Hold &h) {
        if (!alone_) h.unlock();
    }
    // There may be something for threads that found nothing. The lock is held, as for all that follows.
    void tell() { count_.store(count_.load(std::memory_order_relaxed) + 1, std::memory_order_release); }
    bool any_asleep() const { return asleep_ != 0; }
    void wake_one() { news_.notify_one(); }
    void wake_all() { tell(), news_.notify_all(); }
    // Looks for news without the lock, for so long; whether there are some.
    bool look(Hold &h) {
        const uint32_t seen = count_.load(std::memory_order_relaxed);
        unlock(h);
        const bool news = changes(seen);
        return lock(h), news || count_.load(std::memory_order_relaxed) != seen;
    }
    void sleep(Hold &h) {
        if (alone_) throw Error("the board is stuck", BTJOBS_ILLEGAL); // (it is proved not to)
        asleep_++;
        news_.wait(h);
        asleep_--;
    }
private:
    // (Its read is the one that helgrind, which knows no atomics, takes for a race.)
#if defined(__GNUC__)
    __attribute__((noinline))
#endif
    bool changes(uint32_t seen) const {
        if (!look_us_) return false;
        const auto until = std::chrono::steady_clock::now() + std::chrono::microseconds(look_us_); // (a pause takes 10 to 140 cycles)
        do {
            for (int i = 0; i < 16; i++) {
                if (count_.load(std::memory_order_acquire) != seen) return true;
                relax();
            }
        } while (std::chrono::steady_clock::now() < until);
        return false;
    }
};

} // namespace detail
} // namespace btjobs
