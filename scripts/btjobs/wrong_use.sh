#!/bin/sh
# Wrong use is refused by the compiler, and in words.     scripts/btjobs/wrong_use.sh [COMPILER]
here=$(dirname "$0"); cxx=${1:-c++}; bad=0; cd "$here" || exit 1
$cxx -std=c++17 -fsyntax-only -I../../include -DCASE=0 wrong_use.cpp || bad=1
while read -r case words; do
    out=$($cxx -std=c++17 -fsyntax-only -I../../include -DCASE="$case" wrong_use.cpp 2>&1) && { echo "case $case compiles"; bad=1; continue; }
    echo "$out" | grep -qF "$(echo "$words" | tr '|' '\n')" || { echo "case $case is refused without the words: $words"; echo "$out" | head -5; bad=1; }
done <<'W'
1 a game has `Thought think(const View &) const`
2 World is a value
3 this type has padding or floats
4 a game has `Thought think(const View &) const`
5 read-only|cannot assign
6 read-only|cannot assign
7 is not a member of|no member named 'answer'
8 a game has `World turn(const Start &, span<const Thought>) const`
9 Thought is a value
W
[ $bad = 0 ] && echo "wrong use is refused"
exit $bad
