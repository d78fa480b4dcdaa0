// btjobs.hpp: frames of jobs for C++17, in an order that a proved board allows. A game is a struct of pure functions; it is run on threads,
// on one thread, or played again from a log. Header only, over libbtjobs.a (btjobs.h).
//
//     struct Life {
//         using World = std::vector<char>;                   // all that lives from frame to frame
//         using Thought = char;                              // what one think comes to
//         World start() const;
//         Thought think(const btjobs::View<Life> &v) const;  // reads v.world, v.signals, v.frame, v.agent
//         World turn(const btjobs::Start<Life> &s, btjobs::span<const Thought> thoughts) const;
//     };
//     btjobs::Settings n;
//     n.frames = 60, n.agents = 4096;
//     auto end = btjobs::run(Life{}, n, 8);                  // on 8 threads; end.world, end.log
//     auto again = btjobs::replay(Life{}, n, end);           // the same order, on this one
//
// What is promised: the same frames for any number of threads and any schedule, IF each of these functions is a function of its
// arguments. No proof sees that. A const reference can be held to it by the compiler; a global, a mutable member or a pointer can't. The
// finder (btjobs_finder.hpp) tries it. Proved is the board behind btjobs.h; these headers are tested.
//
// A game may also have:
//     using Signals = ..;  Signals signals(uint32_t frame) const;                            the frame's input
//     using Question = ..; using Answer = ..;                                                questions, one after another:
//     std::variant<Thought, Question> think(const View &, span<const Answer>) const;         a thought, or the next question
//     Answer answer(const View &, const Question &) const;                                   runs beside other jobs
//     Band draw(const World &, uint32_t band) const;                                         any type; settings.bands of them
//     Shown show(uint32_t frame, span<const Band>) const;                                    for the finder: what is shown of a frame
#pragma once
#include "btjobs/board.hpp"
#include "btjobs/game.hpp"
#include "btjobs/run.hpp"
#include "btjobs/store.hpp"
