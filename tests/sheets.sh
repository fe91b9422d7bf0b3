#!/bin/bash
# Compares the built program `sheets` with the model, on every node of many
# parameter sets and on lines that just fail each check.
# Run from the repository root, after tools/programs has built the programs.
set -euo pipefail

sheets=target/bin/sheets
work=target/model/sheets
export CARGO_TARGET_DIR=target/model

cargo build --quiet --release --offline --manifest-path model/Cargo.toml
model=target/model/release/model
mkdir -p "$work"

"$model" gen-sheets > "$work/lines"
"$model" sheets < "$work/lines" > "$work/expected"
"$sheets" < "$work/lines" > "$work/answered"

if ! cmp "$work/expected" "$work/answered"; then
    diff "$work/expected" "$work/answered" | head -n 10 || true
    echo "sheets: differs from the model"
    exit 1
fi
echo "sheets: $(grep -c "" "$work/lines") lines as the model prints them ($(grep -c '^places' "$work/expected") sheets, $(grep -c '^no' "$work/expected") declines)"
