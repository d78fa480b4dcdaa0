#!/usr/bin/env bash
# Refuses words by which a program would write over a file that it reads.
#
#     scripts/programs/same_file.sh NAME WORD..
#
# Those are the log of `play`, the journal of `record` and the whole log of `complete`, where such a file is one of the files that the words
# have read, and standard output, where it goes to one of them. The program itself refuses paths that lead to one file; a file of two names
# (a hard link), and where standard output goes, it can't ask for, so the launcher asks here. A refusal is one line on standard error,
# with status 2. Files that are not plain, as /dev/null and pipes, may be both read and written.
set -u
name=$1
shift

outputs=()
inputs=()
places=()
rest=
command=${1:-}
[ $# -gt 0 ] && shift
while [ $# -gt 0 ]; do
    word=$1
    shift
    if [ -z "$rest" ]; then
        case $word in
        --) rest=1; continue ;;
        --log=*) log=${word#*=} ;;
        --script=* | --live=*) inputs+=("${word#*=}"); continue ;;
        --*=* | --help | -h | --version | -V) continue ;;
        --log | --script | --live | --*)
            [ $# -gt 0 ] || break
            case $word in
            --log) log=$1 ;;
            --script | --live) inputs+=("$1") ;;
            esac
            shift
            ;;
        *) places+=("$word"); continue ;;
        esac
        # `explain` reads its log.
        if [ -n "${log:-}" ]; then
            if [ "$command" = play ]; then outputs+=("$log"); else inputs+=("$log"); fi
            log=
        fi
    else
        places+=("$word")
    fi
done

# How many of the files that are named without an option are read.
case $command in
complete) read=2 ;;
record) read=1 ;;
*) read=${#places[@]} ;;
esac
inputs+=("${places[@]:0:read}")
outputs+=("${places[@]:read}")

# Without words a level is read from standard input.
[ -n "$command" ] || inputs=(/dev/stdin)

for input in "${inputs[@]}"; do
    [ -f "$input" ] || continue
    for output in "${outputs[@]}"; do
        if [ "$output" -ef "$input" ]; then
            echo "words: $output would overwrite $input" >&2
            exit 2
        fi
    done
    if [ /dev/stdout -ef "$input" ]; then
        echo "words: standard output would overwrite $input" >&2
        exit 2
    fi
done
