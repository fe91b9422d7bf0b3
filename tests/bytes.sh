#!/bin/sh
# Holds every product and every inverse of byte symbols against a computation in Rust that uses no table.
# Needs target/bin/byte_table, which tools/programs builds.
set -eu
cd "$(dirname "$0")/.."
work=$(mktemp -d)
trap 'rm -rf "$work"' EXIT
rustc --edition 2021 -O -o "$work/bytes" tests/bytes/bytes.rs
i=0
while [ "$i" -lt 256 ]; do
    printf "\\$(printf %03o "$i")"
    i=$((i + 1))
done > "$work/all"
target/bin/byte_table < "$work/all" > "$work/table"
"$work/bytes" < "$work/table"
