// btjobs_finder.hpp: does a game's outcome depend on the order of its jobs? Plays the game in legal orders drawn by seeds, on one thread,
// compares what every job comes to, and of a difference names the job, and the two steps whose order decides. Over btjobs.hpp.
//
//     int main(int argc, char **argv) {
//         return btjobs::finder_main(argc, argv, [] { return MyGame{}; }, settings);   // 0 all orders agree, 1 they don't, 2 wrong use
//     }
// or in a test of one's own:
//     auto found = btjobs::explore([] { return MyGame{}; }, settings);
//     CHECK_MESSAGE(found.agrees(), found.text);
//
// The callable makes a new game for each order; what never changes, as maps and textures, it may share by a shared_ptr to const.
//
// It finds dependence on order, and what differs when the same order is played twice. It does not find values torn by two threads (a
// thread sanitizer does), nor what differs only between machines. Cost: each order is a whole run of so many frames on one thread, with a
// hash of what each job comes to; its results stay until it is compared, 8 bytes a job.
#pragma once
#include "btjobs.hpp"
#include "btjobs/explorer.hpp"
#include "btjobs/page.hpp"
#ifndef _WIN32
#include <unistd.h>
#endif

namespace btjobs {

// Plays the plain order and so many drawn ones. `make` makes a new game for each. An exception of the plain order comes out of here.
template <class Make> Finding explore(Make make, const Settings &settings, const Options &options = {}) {
    return Explorer<Make>(make, settings, options).explore();
}

// A log's order, played beside the plain one.
struct Compared {
    std::optional<Step> job; // the first that comes to something else, if one does
    uint64_t steps = 0;
    std::string text;
};
// Throws an Error where the log isn't of this game.
template <class Make> Compared compare(Make make, const Given &given, const Log &log) {
    using G = std::decay_t<decltype(make())>;
    const G one = make(), other = make();
    Player<G> plain(one, given), again(other, given);
    while (plain.plain()) {}
    std::string thrown;
    try {
        for (const Step &s : order_of(log))
            if (!again.play(s)) throw Error("the log isn't of this game: " + s.text() + " can't be played", BTJOBS_ILLEGAL);
    } catch (const Error &) { throw; }
    catch (const std::exception &e) { thrown = e.what(); }
    Compared c;
    c.steps = again.order.size();
    c.job = thrown.empty() ? plain.results.first_difference(again.results, again.shown()) : again.order.back();
    if (!c.job) c.text = "this order of " + std::to_string(c.steps) + " steps comes to the same as the plain order\n";
    else if (!thrown.empty()) c.text = c.job->text() + " throws \"" + thrown + "\"\n";
    else {
        // both once more, to keep what it came to
        const G first = make(), second = make();
        Player<G> there(first, given), here(second, given);
        there.watched = here.watched = c.job;
        while (there.plain()) {}
        for (const Step &s : order_of(log)) here.play(s);
        c.text = c.job->text() + " comes to something else than in the plain order\n    " + here.value + "\n  where it came to\n    " + there.value + "\n";
    }
    return c;
}

namespace detail {

struct Words {
    Options options;
    std::string replay, page;
    bool json = false, help = false;

    static const char *usage() {
        return " [--seeds N] [--from SEED] [--seed SEED] [--seconds S] [--runs N [--threads T]]\n"
               "    [--log FILE] [--page FILE] [--replay FILE] [--json] [--quiet]\n"
               "\n"
               "Plays the game in orders drawn by the seeds from 1 on, and looks for one that comes to something else than the plain order.\n"
               "  --seeds N       so many orders (1000)            --from SEED    the first seed (1)\n"
               "  --seed SEED     this one alone                   --seconds S    draw no more after so many seconds\n"
               "  --runs N        and then so many runs on threads --threads T    how many threads (4)\n"
               "  --log FILE      where the order that differs is written (btjobs-order.log)\n"
               "  --page FILE     shows both orders, or the log of --replay, in one HTML file\n"
               "  --replay FILE   plays such an order again, and says what comes to something else\n"
               "  --json          the report as one JSON object    --quiet        no progress on standard error\n"
               "Status: 0 all orders agree, 1 they don't, 2 wrong use, or the game throws in the plain order.\n";
    }
    Words(int argc, char **argv) {
        options.program = argv[0];
#ifndef _WIN32
        options.progress = isatty(2);
#endif
        for (int i = 1; i < argc; i++) {
            const std::string word = argv[i];
            auto value = [&]() -> std::string { if (++i == argc) throw Error(word + " wants a value", BTJOBS_ILLEGAL); return argv[i]; };
            auto number = [&]() -> uint64_t {
                const std::string text = value();
                if (text.empty() || text.find_first_not_of("0123456789") != text.npos || text.size() > 18) throw Error(word + " wants a number", BTJOBS_ILLEGAL);
                return std::stoull(text);
            };
            if (word == "--seeds") options.seeds = number();
            else if (word == "--seed") options.from = number(), options.seeds = 1;
            else if (word == "--from") options.from = number();
            else if (word == "--seconds") options.seconds = double(number());
            else if (word == "--runs") options.runs = number();
            else if (word == "--threads") options.threads = uint32_t(number());
            else if (word == "--log") options.log = value();
            else if (word == "--replay") replay = value();
            else if (word == "--page") page = value();
            else if (word == "--json") json = true;
            else if (word == "--quiet") options.progress = false;
            else if (word == "--help") help = true;
            else throw Error("no such word: " + word + "\nusage: " + options.program + usage(), BTJOBS_ILLEGAL);
        }
    }
};
inline void write_file(const std::string &path, const std::string &text) {
    std::ofstream out(path, std::ios::binary);
    out << text;
    if (!out.flush()) throw Error("can't write " + path, BTJOBS_ILLEGAL);
}

} // namespace detail

// A program of one's own in one line. 0: all orders agree; 1: they don't; 2: wrong use, or the game throws in the plain order.
template <class Make> int finder_main(int argc, char **argv, Make make, const Settings &settings) {
    try {
        const detail::Words words(argc, argv);
        if (words.help) return std::printf("usage: %s%s", argv[0], detail::Words::usage()), 0;
        if (!words.replay.empty()) {
            std::ifstream in(words.replay);
            if (!in) throw Error("can't read " + words.replay, BTJOBS_ILLEGAL);
            Given given{settings, 1};
            Log log;
            read_log(in, given, log);
            const Compared c = compare(make, given, log);
            if (!words.page.empty()) detail::write_file(words.page, page_of(given, log, c.text, c.job));
            if (words.json)
                std::printf("{\"log\": %s, \"agrees\": %s, \"steps\": %llu, \"job\": %s, \"text\": %s}\n", detail::quoted(words.replay).c_str(), c.job ? "false" : "true",
                    (unsigned long long)c.steps, c.job ? detail::json(*c.job).c_str() : "null", detail::quoted(c.text).c_str());
            else std::fputs(c.text.c_str(), stdout);
            return c.job.has_value();
        }
        const Finding f = explore(make, settings, words.options);
        if (!words.page.empty() && !f.agrees()) detail::write_file(words.page, page_of(f));
        std::fputs(words.json ? json_of(f).c_str() : f.text.c_str(), stdout);
        return !f.agrees();
    } catch (const std::exception &e) {
        std::fprintf(stderr, "%s\n", e.what());
        return 2;
    }
}

} // namespace btjobs
