#!/bin/bash
# Times the model's engine, and the program `cards` against the model on a
# session of 100,000 lines.
# Run from the repository root, after tools/programs has built the programs.
# With --no-mend the session has no line that mends.
set -euo pipefail

lines=100000
work=target/model/bench
export CARGO_TARGET_DIR=target/model

cargo build --quiet --release --offline --manifest-path model/Cargo.toml
model=target/model/release/model
mkdir -p "$work"

echo "nanoseconds per operation of the model, bytes, k = 32, a = 4, tau = 2, b = 4"
"$model" bench

# Prints lines a second and peak memory of a program on the long session.
timed() {
    local name=$1
    shift
    /usr/bin/time -f '%e %M' -o "$work/time" "$@" < "$work/session" > "$work/$name.answers"
    read -r seconds kilobytes < "$work/time"
    awk -v name="$name" -v lines="$lines" -v seconds="$seconds" -v kilobytes="$kilobytes" 'BEGIN {
        if (seconds == 0) seconds = 0.01
        printf "%s\t%d lines\t%.2f s\t%.0f lines a second\t%d kB at most\n", name, lines, seconds, lines / seconds, kilobytes
    }'
}

"$model" long-session "$lines" "$@" > "$work/session"
timed model "$model" answer "$@"
timed cards target/bin/cards
cmp "$work/model.answers" "$work/cards.answers"
