#!/usr/bin/env bash
# Builds dist/: the proved programs and libraries for x86-64 Linux, and SUMS, which tells of each file its SHA-256 and that of its sources.
#
#     scripts/programs/dist.sh [--into FOLDER]      proves and builds what isn't proved yet (./prove), and writes dist/, or FOLDER
#     scripts/programs/dist.sh --check [FOLDER]     builds the same in a folder that is deleted, and names each file of dist/ that is not the same
#
# All tools are the kit's own, and no path, date or name of a machine is in what they write: so the bytes depend on the sources and the kit
# alone. Where there is no dist/, --check says so and passes: between two releases a commit may leave it out. Status 0 where all is
# written or is the same, 1 where it isn't, 3 where something can't be built.
set -euo pipefail
folder=${2:+$(realpath -m "$2")}
cd "$(dirname "$(readlink -f "${BASH_SOURCE[0]}")")/../.."

fail() { echo "dist: $*" >&2; exit 3; }

folder=${folder:-dist}
case "$# ${1:-}" in
    "0 " | "2 --into") ;;
    "1 --check" | "2 --check")
        if [ ! -d "$folder" ]; then
            echo "dist: there is no $folder, so nothing is compared"
            exit 0
        fi ;;
    *) fail "the words are none, --into FOLDER, or --check [FOLDER]" ;;
esac
[ "$(command -v rattle)" ] || fail "the Rattle kit (rattle) is not on the path"
kit=$(dirname "$(dirname "$(readlink -f "$(command -v rattle)")")")
# The kit's clang is all of LLVM's tools, by the name that it is called by.
tool() { (exec -a "$1" "$kit/toolchain/bin/clang" "${@:2}"); }

./prove btworld btview library jobs || fail "not all is proved"
room=$(mktemp -d)
trap 'rm -rf "$room"' EXIT

for name in btworld btview; do
    tool llvm-strip --strip-all -o "$room/$name" "crates/$name/out/$name"
done

# An archive of a crate's proved calls and the kit's names for malloc, realloc and free; and a shared library of it, in which the calls that
# begin with its name can be seen, and no others.
libraries() {
    local name=$1 crate=$2 major=$3
    (cd "$room" && tool llvm-ar -M) << END
create lib$name.a
addlib $PWD/crates/$crate/out/lib$crate.a
addlib $kit/c/liblibc_c.a
save
end
END
    tool llvm-strip --strip-debug "$room/lib$name.a"
    echo "{ global: ${name}_*; local: *; };" > "$room/calls.map"
    tool ld.lld -shared --strip-all --build-id=none -z relro -z now -z noexecstack --hash-style=gnu -soname "lib$name.so.$major" \
        --version-script "$room/calls.map" -o "$room/lib$name.so.$major" \
        --whole-archive "$room/lib$name.a" --no-whole-archive "$kit/toolchain/lib/libc.so.6"
    files+=("lib$name.a" "lib$name.so.$major")
}
# The first number of a header's version.
major_of() { awk -v name="$2" '$2 == name { print int($3 / 10000) }' "include/$1"; }

files=(btworld btview)
libraries btworld btworld_c "$(major_of btworld.h BTWORLD_VERSION)"
libraries btjobs frame_jobs_c "$(major_of btjobs.h BTJOBS_VERSION)"
{
    echo "# scripts/programs/dist.sh wrote this: the SHA-256 of each file, that of the sources that it is built from (scripts/programs/in_dist.sh --of FILE), and its name."
    echo "# kit: $(rt version | head -n 1)"
    for name in "${files[@]}"; do
        echo "$(sha256sum < "$room/$name" | cut -d ' ' -f 1) $(scripts/programs/in_dist.sh --of "$name") $name"
    done
    echo "$(scripts/programs/in_dist.sh --command-line) - command-line"
} > "$room/SUMS"
chmod 755 "$room"/{btworld,btview,*.so.*}
chmod 644 "$room"/{*.a,SUMS}

if [ "${1:-}" = --check ]; then
    status=0
    for name in "${files[@]}" SUMS; do
        cmp -s "$room/$name" "$folder/$name" || { echo "dist: $folder/$name is not what these sources and this kit come to"; status=1; }
    done
    for found in "$folder"/*; do
        [ -e "$room/${found##*/}" ] || { echo "dist: $found is not built from anything"; status=1; }
    done
    [ $status = 0 ] && echo "dist: ${#files[@]} files are those of the sources"
    exit $status
fi
rm -rf "$folder"
mkdir "$folder"
for name in SUMS "${files[@]}"; do cp -p "$room/$name" "$folder/"; done
ls -l "$folder"
