#!/bin/bash
# Runs the model's own tests: the worked figures, recovery of every node, and
# the words that just pass and just fail each check.
# Run from the repository root.
set -euo pipefail

export CARGO_TARGET_DIR=target/model
mkdir -p "$CARGO_TARGET_DIR"
log=$CARGO_TARGET_DIR/tests.log
if ! cargo test --offline --manifest-path model/Cargo.toml > "$log" 2>&1; then
    tail -n 40 "$log"
    exit 1
fi
echo "model: $(grep -c ' \.\.\. ok$' "$log") tests passed"
