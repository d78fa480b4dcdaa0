// What a game is: read off its type, so that a wrong one doesn't compile, and says what is wanted.
#pragma once
#include "board.hpp"
#include <type_traits>
#include <utility>
#include <variant>

namespace btjobs {

// The signals, question or answer of a game that has none.
struct None {};

namespace detail {
template <class G, class = void> struct signals_of { using type = None; };
template <class G> struct signals_of<G, std::void_t<typename G::Signals>> { using type = typename G::Signals; };
template <class G, class = void> struct question_of { using type = None; static constexpr bool any = false; };
template <class G> struct question_of<G, std::void_t<typename G::Question>> { using type = typename G::Question; static constexpr bool any = true; };
template <class G, class = void> struct answer_of { using type = None; };
template <class G> struct answer_of<G, std::void_t<typename G::Answer>> { using type = typename G::Answer; };
template <class G> using drawn = decltype(std::declval<const G &>().draw(std::declval<const typename G::World &>(), 0u));
template <class G, class = void> struct band_of { using type = None; static constexpr bool any = false; };
template <class G> struct band_of<G, std::void_t<drawn<G>>> { using type = std::decay_t<drawn<G>>; static constexpr bool any = true; };
template <class G, class B, class = void> struct shown_of { static constexpr bool any = false; };
template <class G, class B> struct shown_of<G, B, std::void_t<decltype(std::declval<const G &>().show(0u, std::declval<span<const B>>()))>> {
    static constexpr bool any = true;
};
} // namespace detail

template <class G> using SignalsOf = typename detail::signals_of<G>::type;
template <class G> using QuestionOf = typename detail::question_of<G>::type;
template <class G> using AnswerOf = typename detail::answer_of<G>::type;
template <class G> using BandOf = typename detail::band_of<G>::type;
template <class G> constexpr bool asks = detail::question_of<G>::any;

// A frame's start: all that its turn may read besides the thoughts.
template <class G> struct Start {
    uint32_t frame; // from 1
    const typename G::World &world;
    const SignalsOf<G> &signals;
};
// All that a think and its answers may read.
template <class G> struct View : Start<G> {
    uint32_t agent; // from 0
};

template <class G> constexpr void check_game() {
    using V = View<G>;
    using T = typename G::Thought;
    using W = typename G::World;
    static_assert(!std::is_reference_v<W> && !std::is_pointer_v<W>, "World is a value: a pointer would be shared by frames");
    static_assert(!std::is_reference_v<T> && !std::is_pointer_v<T>, "Thought is a value: a pointer would be shared by thinks");
    static_assert(std::is_invocable_r_v<W, decltype(&G::start), const G &>, "a game has `World start() const`");
    if constexpr (asks<G>) {
        static_assert(std::is_invocable_r_v<std::variant<T, QuestionOf<G>>, decltype(&G::think), const G &, const V &, span<const AnswerOf<G>>>,
            "with questions, a game has `std::variant<Thought, Question> think(const View &, span<const Answer>) const`");
        static_assert(std::is_invocable_r_v<AnswerOf<G>, decltype(&G::answer), const G &, const V &, const QuestionOf<G> &>,
            "with questions, a game has `Answer answer(const View &, const Question &) const`");
    } else
        static_assert(std::is_invocable_r_v<T, decltype(&G::think), const G &, const V &>, "a game has `Thought think(const View &) const`");
    static_assert(std::is_invocable_r_v<W, decltype(&G::turn), const G &, const Start<G> &, span<const T>>,
        "a game has `World turn(const Start &, span<const Thought>) const`");
    static_assert(std::is_default_constructible_v<T>, "a Thought can be made of nothing");
}

} // namespace btjobs
