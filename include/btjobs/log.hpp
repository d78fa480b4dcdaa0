// A log as text, and back: a line with the numbers of the run, lines of remarks that begin with #, and a line for each event.
#pragma once
#include "board.hpp"
#include <algorithm>
#include <istream>
#include <iterator>
#include <ostream>
#include <sstream>

namespace btjobs {

// What a run is played under.
struct Given {
    Settings settings;
    uint32_t workers = 1;
};

inline void write_log(std::ostream &o, const Given &g, const Log &log, const std::string &about = "") {
    const Settings &n = g.settings;
    const btjobs_numbers numbers{n.frames, n.agents, n.bands, g.workers, n.running, n.started, n.slots, n.most_questions};
    std::string text(256 + 40 * log.size(), '\0');
    size_t size = 0;
    auto write = [&] { return btjobs_write_log(&numbers, n.season, log.data(), log.size(), reinterpret_cast<uint8_t *>(&text[0]), text.size(), &size); };
    uint32_t status = write();
    if (status == BTJOBS_SHORT) text.resize(size), status = write();
    if (status != BTJOBS_OK) throw Error(std::string("a log: ") + btjobs_status_text(status), status);
    const size_t behind_head = text.find('\n') + 1;
    o.write(text.data(), std::streamsize(behind_head));
    std::istringstream lines(about);
    for (std::string line; std::getline(lines, line);) o << "# " << line << "\n";
    o.write(text.data() + behind_head, std::streamsize(size - behind_head));
}

// Throws an Error with the first line that is none.
inline void read_log(std::istream &in, Given &g, Log &log) {
    const std::string text{std::istreambuf_iterator<char>(in), {}};
    log.resize(size_t(std::count(text.begin(), text.end(), '\n')) + 1);
    btjobs_numbers numbers;
    uint32_t season;
    size_t count = 1;
    const uint32_t status = btjobs_read_log(reinterpret_cast<const uint8_t *>(text.data()), text.size(), &numbers, &season, log.data(), log.size(), &count);
    if (status == BTJOBS_LOG_HEAD || status == BTJOBS_LOG_LINE) {
        std::istringstream lines(text);
        std::string line;
        for (size_t i = 0; i < count; i++) std::getline(lines, line);
        throw Error("not a line of a btjobs log: " + line, BTJOBS_ILLEGAL);
    }
    if (status != BTJOBS_OK) throw Error(std::string("a log: ") + btjobs_status_text(status), status);
    log.resize(count);
    Settings &n = g.settings;
    n.frames = numbers.frames, n.agents = numbers.agents, n.bands = numbers.bands, n.most_questions = numbers.most_questions;
    n.slots = numbers.slots, n.started = numbers.large, n.running = numbers.small, n.season = season, g.workers = numbers.workers;
}

} // namespace btjobs
