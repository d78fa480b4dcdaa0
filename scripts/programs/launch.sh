#!/usr/bin/env bash
# Starts a program of this repository with the words that follow its name.
#
#     scripts/programs/launch.sh NAME WORD..
#
# The first of these that there is takes this script's place:
#
#  1. the proved program of these very sources, in dist/ or as ./prove built it; nothing is said then;
#  2. the unproved program of these very sources, with run-time checks, which an earlier call has compiled;
#  3. for --help, --version and words that it refuses, a program of other sources whose command line is that of these sources;
#  4. the sources, compiled now (scripts/programs/play_unproved.py) and kept for 2.
#
# In 2 and 4 a line on standard error says what is started. No proof is begun here: ./prove does that. Beside a program that is no file of
# dist/ stands the record of what it was built from: the lines of scripts/programs/sums.sh, and last the program's own.
set -u
name=$1
shift
top=$(cd "$(dirname "$(readlink -f "${BASH_SOURCE[0]}")")/../.." && pwd)
cache=${XDG_CACHE_HOME:-${HOME:-/nowhere}/.cache}/btworld

say() { echo "$name: $*" >&2; }

# Whether a program stands there as its record says, of whatever sources.
is_whole() { [ -x "$1" ] && [ -e "${1%/*}/built_from" ] && [ "$(sha256sum < "$1")" = "$(tail -n 1 "${1%/*}/built_from")" ]; }

is_of_these_sources() { [ "$("$top/scripts/programs/sums.sh" "$name")" = "$(head -n -1 "${1%/*}/built_from")" ]; }

# Prints the lines of a record that are of the command line.
of_the_command_line() { grep -E '  crates/(command_line|view_commands)/(src|specs)/'; }

# Whoever gives no words at a terminal may not know that a level is read from there.
if [ "$name" = btworld ] && [ $# -eq 0 ] && [ -t 0 ]; then
    say "waits for a level on standard input, up to its end (Ctrl-D); ./btworld --help says what else it does"
fi

"$top/scripts/programs/same_file.sh" "$name" "$@" || exit

if program=$("$top/scripts/programs/in_dist.sh" "$name"); then
    exec "$program" "$@"
fi
notice="no proved program stands for these sources"
last=$("$top/scripts/programs/in_dist.sh" --any "$name")
# `rt ci` takes away what stands in a crate's out/, and leaves the copy in that of the repository.
for program in "$top/out/proved/$name/$name" "$top/crates/$name/out/$name"; do
    is_whole "$program" || continue
    if is_of_these_sources "$program"; then exec "$program" "$@"; fi
    last=$program
done
if [ -n "$last" ]; then
    if [ -n "${BTWORLD_LAST_PROVED:-}" ]; then
        say "this is the last proved program, of other sources than those that stand here"
        exec "$last" "$@"
    fi
    notice="the sources have changed since the last proof (BTWORLD_LAST_PROVED=1 starts the last proved program)"
fi

for kept in "$top/out/unproved/$name/$name" "$cache/$name/$name"; do
    if is_whole "$kept" && is_of_these_sources "$kept"; then
        say "$notice: what runs was compiled from them unproved, with run-time checks; ./prove builds the proved program"
        # A run-time check that stops it ends it with status 3.
        export ASAN_OPTIONS="${ASAN_OPTIONS:+$ASAN_OPTIONS:}exitcode=3"
        exec "$kept" "$@"
    fi
done

# Prints a program of other sources whose command line is that of these sources.
of_other_sources() {
    local program own
    "$top/scripts/programs/in_dist.sh" --reads-words "$name" && return
    own=$("$top/scripts/programs/sums.sh" "$name" | of_the_command_line)
    for program in "$top/crates/$name/out/$name" "$top/out/proved/$name/$name" "$top/out/unproved/$name/$name" "$cache/$name/$name"; do
        if is_whole "$program" && [ "$(of_the_command_line < "${program%/*}/built_from")" = "$own" ]; then
            echo "$program"
            return
        fi
    done
    return 1
}

# It is asked with paths that lead nowhere, so that words which it takes come to no more than a missing file (status 1).
if [ $# -gt 0 ] && program=$(of_other_sources); then
    asked=() before=
    for word in "$@"; do
        case $before,$word in
            ,*) asked+=("$word") ;;
            *,--script=* | *,--live=* | *,--log=*) asked+=("${word%%=*}=/nowhere/at/all") ;;
            *,-*) asked+=("$word") ;;
            --script,* | --live,* | --log,*) asked+=(/nowhere/at/all) ;;
            --*=*,* | [!-]*,*) asked+=(/nowhere/at/all) ;;
            *) asked+=("$word") ;;
        esac
        before=$word
    done
    "$program" "${asked[@]}" < /dev/null > /dev/null 2>&1
    case $? in 0 | 2) exec "$program" "$@" ;; esac
fi

. "$top/scripts/programs/needs.sh"
missing=$(what_is_missing)
if [ -n "$missing" ]; then
    say "not started: $notice, and $missing"
    exit 3
fi
# Python doesn't start where standard input is a folder: closed, it is as unreadable.
if [ -d /dev/stdin ]; then exec <&-; fi
exec python3 "$top/scripts/programs/play_unproved.py" "$name" "$notice" "$@"
