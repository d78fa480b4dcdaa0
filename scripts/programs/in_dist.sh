#!/usr/bin/env bash
# Prints the path of a file of dist/, and ends with 0, where dist/SUMS says that it is of the sources that stand here and its bytes are those
# that were built; else it prints nothing, and ends with 1. scripts/programs/launch.sh, examples/Makefile and the Python package ask it.
#
#     scripts/programs/in_dist.sh FILE                btworld, btview, or an archive or shared library
#     scripts/programs/in_dist.sh --of FILE           prints the sum of the sources that such a file is built from
#     scripts/programs/in_dist.sh --command-line      prints the sum of what the command lines of the programs are read by
#     scripts/programs/in_dist.sh --reads-words NAME  prints the path of a program of whatever sources, if that sum is theirs too
#     scripts/programs/in_dist.sh --any NAME          prints the path of a program of whatever sources
set -u
top=$(cd "$(dirname "$(readlink -f "${BASH_SOURCE[0]}")")/../.." && pwd)

# The crate that a file is built from.
crate_of() {
    case $1 in
        btworld | btview) echo "$1" ;;
        libbtworld.*) echo btworld_c ;;
        libbtjobs.*) echo frame_jobs_c ;;
        *) echo "in_dist: dist/ has no $1" >&2; exit 2 ;;
    esac
}

sum_of_sources() { "$top/scripts/programs/sums.sh" "$(crate_of "$1")" | sha256sum | cut -d ' ' -f 1; }

sum_of_command_line() {
    (cd "$top" && find crates/{command_line,view_commands}/{src,specs} -type f | LC_ALL=C sort | xargs -d '\n' sha256sum) | sha256sum | cut -d ' ' -f 1
}

# Prints a column of the line that SUMS has of a file.
column() { awk -v file="$1" -v at="$2" '$3 == file { print $at }' "$top/dist/SUMS"; }

case $1 in
    --of) sum_of_sources "$2"; exit ;;
    --command-line) sum_of_command_line; exit ;;
esac
[ -r "$top/dist/SUMS" ] || exit 1
file=${2:-$1}
case $1 in
    --any) ;;
    --reads-words) [ "$(column command-line 1)" = "$(sum_of_command_line)" ] || exit 1 ;;
    *) [ "$(column "$file" 2)" = "$(sum_of_sources "$file")" ] || exit 1 ;;
esac
[ -r "$top/dist/$file" ] && [ "$(sha256sum < "$top/dist/$file" | cut -d ' ' -f 1)" = "$(column "$file" 1)" ] || exit 1
echo "$top/dist/$file"
