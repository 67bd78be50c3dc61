#!/usr/bin/env bash
# The Rust package by cargo, offline: its example, its tests and the examples in its documentation.
set -euo pipefail
cd "$(dirname "$0")/.."
export CARGO_TARGET_DIR=$PWD/target/cargo RUSTFLAGS="-D warnings" RUSTDOCFLAGS="-D warnings"
log=$(mktemp)
trap 'rm -f "$log"' EXIT
if ! cargo test --quiet --offline --locked --manifest-path rust/allstar/Cargo.toml > "$log" 2>&1; then
    cat "$log"
    exit 1
fi
diff <(target/examples/read_notes examples/g1.grammar bench/cases/g1.notes) \
    <("$CARGO_TARGET_DIR/debug/examples/read_notes" examples/g1.grammar bench/cases/g1.notes)
echo "package: built by cargo, and its documentation's examples run"
