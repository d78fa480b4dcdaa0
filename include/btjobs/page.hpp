// Orders as a page: one HTML file that needs nothing else.
#pragma once
#include "finding.hpp"

namespace btjobs {
namespace detail {

inline constexpr const char *PAGE =
#include "page.inc"
    ;

// What the page's script reads: the log's stretches are worked out there.
inline std::string page(const Given &given, const std::string &title, const std::string &about, const std::vector<std::pair<std::string, const Log *>> &logs,
    const std::vector<Step> &marks, const Step *job) {
    std::ostringstream o;
    o << "{\"title\": " << quoted(title) << ", \"text\": " << quoted(about) << ", \"workers\": " << given.workers << ", \"marks\": [";
    for (size_t i = 0; i < marks.size(); i++) o << (i ? ", " : "") << json(marks[i]);
    o << "], \"job\": " << (job ? json(*job) : "null") << ", \"logs\": [";
    for (size_t i = 0; i < logs.size(); i++) {
        std::ostringstream log;
        write_log(log, given, *logs[i].second);
        o << (i ? ", " : "") << "{\"name\": " << quoted(logs[i].first) << ", \"log\": " << quoted(log.str()) << "}";
    }
    o << "]}";
    std::string data = o.str(), page = PAGE;
    for (size_t at = 0; (at = data.find("</", at)) != data.npos; at += 3) data.replace(at, 2, "<\\/");
    const std::string place = "/*DATA*/";
    return page.replace(page.find(place), place.size(), data);
}

} // namespace detail

// A difference: the two orders, of which the two steps that decide are marked.
inline std::string page_of(const Finding &f) {
    const bool pair = f.verdict == Verdict::order;
    std::vector<std::pair<std::string, const Log *>> logs;
    if (pair) logs.push_back({"agrees", &f.agreeing_log});
    logs.push_back({"differs", &f.differing_log});
    return detail::page(f.given, "Two orders", f.text, logs, pair ? std::vector<Step>{f.early, f.late} : std::vector<Step>{}, f.verdict == Verdict::torn ? nullptr : &f.job);
}
// A log of a run.
inline std::string page_of(const Given &given, const Log &log, const std::string &text, const std::optional<Step> &job) {
    return detail::page(given, "An order", text, {{"log", &log}}, {}, job ? &*job : nullptr);
}

} // namespace btjobs
