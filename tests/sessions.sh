#!/bin/bash
# Compares the built program `cards` with the model on 2,000 generated session
# files, and runs the example session and one that wears a place out.
# Run from the repository root, after tools/programs has built the programs.
# With --no-mend the word `mend` is unknown.
set -euo pipefail

cards=target/bin/cards
example=examples/session
work=target/model/sessions
export CARGO_TARGET_DIR=target/model

cargo build --quiet --release --offline --manifest-path model/Cargo.toml
model=target/model/release/model
mkdir -p "$work"

"$model" answer "$@" < "$example.txt" > "$work/expected"
if [ $# -eq 0 ]; then
    cmp "$example.answers" "$work/expected"
fi
"$cards" < "$example.txt" > "$work/answered"
cmp "$work/expected" "$work/answered"

# The 250th read of a card image's place answers; the next is declined.
{
    printf 'make\td\tc\t3\t2\t1\t1\nset\t1\t2\t3\t4\t5\t6\t7\t8\t9\n'
    for _ in {1..251}; do printf 'fetch\t1\t2\n'; done
} > "$work/worn"
printf 'ok\t1\t6\nno\t42\t1\t2\n' > "$work/expected"
"$cards" < "$work/worn" | tail -n 2 > "$work/answered"
cmp "$work/expected" "$work/answered"

summary=$("$model" compare --cards "$cards" --sessions 2000 --seed 1 "$@") || {
    echo "$summary"
    exit 1
}
echo "cards: as the model answers: $summary"
