// What the finder has found: as a struct, as a report, and as JSON.
#pragma once
#include "log.hpp"
#include "order.hpp"
#include <cstdio>

namespace btjobs {

enum class Verdict {
    agrees,         // all orders came to the same
    not_repeatable, // the plain order came to something else when it was played again
    settings,       // the plain order came to something else with other workers, fibers or slots
    order,          // the order of two steps decides
    torn,           // a run on threads differs, and its order on one thread doesn't: jobs meet in memory
    unexplained     // a drawn order differs, and doesn't when it is played again
};

struct Finding {
    Verdict verdict = Verdict::agrees;
    uint64_t seed = 0, orders = 0, steps = 0, replays = 0, runs = 0;
    double seconds = 0;
    bool out_of_time = false; // the time limit came before the last seed
    Given given;
    Step job{};              // the first that comes to something else
    Step early{}, late{};    // of Verdict::order: it does when `early` runs just before `late`, and doesn't just after it
    bool neighbours = false; // the two orders differ in nothing but these two steps, next to one another
    size_t out_of_order = 0; // how many steps the smallest order that differs has out of the plain order
    Order agreeing, differing;
    Log agreeing_log, differing_log;
    std::string agreeing_value, differing_value, thrown, text, file, program;
    bool agrees() const { return verdict == Verdict::agrees; }
};

namespace detail {

// A few steps of an order, around the two that decide.
inline std::string around(const Order &order, const Step &one, const Step &other) {
    size_t at = 0;
    while (at < order.size() && !order[at].is(one) && !order[at].is(other)) at++;
    const size_t from = at > 2 ? at - 2 : 0;
    std::string text = from ? "..., " : "";
    for (size_t i = from; i < order.size() && i < at + 3; i++) {
        const bool is = order[i].is(one) || order[i].is(other);
        text += (is ? "[" : "") + order[i].text() + (is ? "], " : ", ");
    }
    return text + "...\n";
}
inline std::string report(const Finding &f) {
    std::ostringstream o;
    const Settings &n = f.given.settings;
    const std::string came = f.thrown.empty() ? " comes to something else" : " throws \"" + f.thrown + "\"", job = f.job.text(), early = f.early.text(), late = f.late.text();
    const bool values = f.agreeing_value != f.differing_value && f.thrown.empty(), shares = f.late.is(f.job) || f.early.is(f.job);
    switch (f.verdict) {
    case Verdict::agrees:
        o << f.orders << " orders agree";
        if (f.runs) o << ", and " << f.runs << " runs on threads";
        return o << (f.out_of_time ? "; the time was up before the others\n" : "\n"), o.str();
    case Verdict::not_repeatable:
        o << "not repeatable: " << job << came << " when the same order is played a second time\n";
        if (values) o << "    " << f.agreeing_value << "\n  and then\n    " << f.differing_value << "\n";
        o << "  It reads what neither its arguments nor the order settle: a static or global that the run before left, the address of an object\n"
             "  (a container keyed by pointers), memory that was not written (padding), the time, or a random device.\n";
        break;
    case Verdict::settings:
        o << "depends on the settings: " << job << came << " in the plain order with slots " << n.slots << ", started " << n.started << ", running " << n.running
          << "\n  It reads what another frame left in its slot, or a number of the settings.\n";
        break;
    case Verdict::order:
        o << "depends on the order: " << job << came;
        if (f.late.is(f.job)) o << " when " << early << " runs just before it\n";
        else if (f.early.is(f.job)) o << " when it runs just before " << late << "\n";
        else o << " when " << early << " runs just before " << late << "\n";
        if (values) o << "    " << f.differing_value << "\n  where it came to\n    " << f.agreeing_value << "\n";
        o << "  agrees:  " << around(f.agreeing, f.early, f.late) << "  differs: " << around(f.differing, f.early, f.late);
        if (f.neighbours) o << "  Up to there the two orders are the same, and these two steps are all that they have otherwise. Both are legal and were played again.\n";
        else o << "  Both orders are legal and were played again.\n";
        if (shares) o << "  So " << early << " and " << late << " share what they may not: look at what both touch besides their arguments.\n";
        else o << "  So these two share something besides their arguments, whose state " << job << " reads later.\n";
        break;
    case Verdict::torn:
        o << "depends on threads: a run on threads comes to something else, and its very order on one thread doesn't\n"
             "  Two jobs touch the same memory at the same time: build with a thread sanitizer (-fsanitize=thread).\n";
        break;
    case Verdict::unexplained:
        o << "an order differs, and not each time: " << job << came << "\n  It reads what neither its arguments nor the order settle (see \"not repeatable\").\n";
        break;
    }
    char seconds[40];
    std::snprintf(seconds, sizeof seconds, "%.2f s", f.seconds);
    o << "  found ";
    if (f.seed) o << "at seed " << f.seed << " (" << f.given.workers << " workers, slots " << n.slots << ", started " << n.started << ", running " << n.running << "), ";
    o << "in " << seconds << ", with " << f.replays << " replays to make it small";
    if (f.out_of_order) o << ": " << f.out_of_order << (f.out_of_order > 1 ? " steps" : " step") << " out of the plain order";
    o << "\n";
    if (!f.file.empty()) o << "  again: " << f.program << " --replay " << f.file << "\n";
    return o.str();
}

inline std::string quoted(const std::string &text) {
    std::string all = "\"";
    for (const char c : text) {
        if (c == '"' || c == '\\') all += '\\', all += c;
        else if (c == '\n') all += "\\n";
        else if (static_cast<unsigned char>(c) < 32) {
            char code[8];
            std::snprintf(code, sizeof code, "\\u%04x", unsigned(c));
            all += code;
        } else all += c;
    }
    return all + "\"";
}
inline std::string json(const Step &s) {
    static const char *kinds[] = {"turn", "think", "answer", "draw", "show"};
    const std::string kind = s.is(Kind::turn) && !s.question ? "input" : kinds[s.kind];
    std::ostringstream o;
    o << "{\"name\": " << quoted(s.text()) << ", \"kind\": \"" << kind << "\", \"frame\": " << s.frame << ", \"index\": " << s.index << ", \"question\": " << s.question << "}";
    return o.str();
}

} // namespace detail

// The same as one JSON object; `null` stands for what a verdict hasn't.
inline std::string json_of(const Finding &f) {
    static const char *verdicts[] = {"agrees", "not repeatable", "settings", "order", "torn", "unexplained"};
    const bool job = !f.agrees() && f.verdict != Verdict::torn, pair = f.verdict == Verdict::order;
    const Settings &n = f.given.settings;
    std::ostringstream o;
    auto text = [&](const char *name, bool is, const std::string &value) { o << ", \"" << name << "\": " << (is ? value : "null"); };
    o << "{\"verdict\": \"" << verdicts[int(f.verdict)] << "\", \"orders\": " << f.orders << ", \"runs\": " << f.runs << ", \"steps\": " << f.steps << ", \"replays\": " << f.replays
      << ", \"seconds\": " << f.seconds << ", \"out_of_time\": " << (f.out_of_time ? "true" : "false");
    text("seed", f.seed != 0, std::to_string(f.seed));
    text("job", job, detail::json(f.job)), text("early", pair, detail::json(f.early)), text("late", pair, detail::json(f.late));
    text("neighbours", pair, f.neighbours ? "true" : "false"), text("out_of_order", pair, std::to_string(f.out_of_order));
    text("agreeing_value", job, detail::quoted(f.agreeing_value)), text("differing_value", job, detail::quoted(f.differing_value));
    text("thrown", !f.thrown.empty(), detail::quoted(f.thrown)), text("log", !f.file.empty(), detail::quoted(f.file));
    o << ", \"workers\": " << f.given.workers << ", \"slots\": " << n.slots << ", \"started\": " << n.started << ", \"running\": " << n.running;
    o << ", \"text\": " << detail::quoted(f.text) << "}\n";
    return o.str();
}

} // namespace btjobs
