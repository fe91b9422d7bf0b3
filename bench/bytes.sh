#!/bin/sh
# Times proved byte products and the row rule of k = 32 over bytes against plain Rust with the same tables, in one run.
set -eu
cd "$(dirname "$0")/.."
(cd crates/byte_bench_c && rt lib) > /dev/null
mkdir -p target/staticlib
cp crates/byte_bench_c/out/libbyte_bench_c.a target/staticlib/libbyte_bench.a
work=$(mktemp -d)
trap 'rm -rf "$work"' EXIT
rustc --edition 2024 -O -C opt-level=3 -o "$work/bytes" bench/bytes/main.rs \
    -L target/staticlib -l static=byte_bench
"$work/bytes"
