#!/bin/sh
# Proves and builds the calls of the full store, and times them beside C.
set -e
cd "$(dirname "$0")/.."
mkdir -p target
(cd crates/full_bench && rt lib) > target/full_bench.log
for cc in clang gcc; do
    echo "$cc"
    $cc -O3 -o target/full_bench benchmarks/full.c crates/full_bench/out/libfull_bench.a
    target/full_bench
done
