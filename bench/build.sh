#!/usr/bin/env bash
# Builds the plain programs into bench/out. Those whose library isn't there are left out, with a line that says so.
set -e
cd "$(dirname "$0")"
mkdir -p out
for it in serial fields parallel; do
    rustc --edition 2021 -C opt-level=3 -C codegen-units=1 -C panic=abort -o out/$it $it.rs
done
g++ -std=c++17 -O3 -o out/tbb tbb.cpp -ltbb || echo "bench: no tbb: libtbb-dev and nlohmann-json3-dev are wanted" >&2
g++ -std=c++17 -O3 -o out/fiber fiber.cpp -lboost_fiber -lboost_context -lpthread ||
    echo "bench: no fiber: libboost-fiber-dev and nlohmann-json3-dev are wanted" >&2
if [ -e ../examples/libbtworld.a ]; then
    cc -O3 -I../include -o out/library library.c ../examples/libbtworld.a
else
    echo "bench: no library: make -C examples builds it" >&2
fi
