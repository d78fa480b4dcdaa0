#!/usr/bin/env bash
# Prints the sum of each file that a program is made of, or that its contracts cite: the sources and definitions of its crate
# and of those below, without their tests. By these lines ./prove and scripts/programs/launch.sh tell whether a program is of these sources.
#
#     scripts/programs/sums.sh NAME
set -eu
cd "$(dirname "$(readlink -f "${BASH_SOURCE[0]}")")/../.."

mapfile -t crates < <(awk -F: -v program="$1" '!/^#/ && NF > 1 { split($1, head, " "); needs[head[1]] = $2 }
    function visit(name, all, count, at) {
        if (name in seen || !(name in needs)) return
        seen[name] = 1
        count = split(needs[name], all, " ")
        for (at = 1; at <= count; at++) visit(all[at])
        print name
    }
    END { visit(program) }' crates.txt)
[ ${#crates[@]} -gt 0 ] || { echo "sums: crates.txt has no $1" >&2; exit 1; }
folders=()
for crate in "${crates[@]}"; do
    folders+=("crates/$crate/src")
    if [ -d "crates/$crate/specs" ]; then folders+=("crates/$crate/specs"); fi
done
find "${folders[@]}" -name tests -prune -o -name '*tests.rt' -o \( -name '*.rt' -o -name '*.antt' \) -print |
    LC_ALL=C sort | xargs -d '\n' sha256sum
