#!/usr/bin/env bash
# The examples, built and run: what they print is held to examples/output/. The C and the Rust program print the same.
#   tests/examples.sh [FLAGS...]    FLAGS say where C finds the header and the library; in include/ and target/ where there are none
set -euo pipefail
cd "$(dirname "$0")/.."
[ $# -gt 0 ] || set -- -I include -L target/staticlib -lallstar_c
work=$(mktemp -d)
trap 'rm -rf "$work"' EXIT
mkdir -p target/examples

# expect NAME: holds standard input to examples/output/NAME.
expect() {
    diff "examples/output/$1" - || { echo "examples: not what examples/output/$1 has"; exit 1; }
}

for program in read_notes keep_cache truck; do
    gcc -std=c99 -O2 -Wall -Wextra -Wpedantic -Wshadow -Wconversion -Werror "examples/$program.c" "$@" -o "target/examples/$program"
done
rustc --edition 2021 -D warnings --extern allstar=target/rust/liballstar.rlib examples/read_notes.rs -o target/examples/read_notes_rust

# Grammars that are refused, by each of the seven, and one with derivations of four billion entries.
printf '' > "$work/1"
printf '\201\0' > "$work/2"
printf '\145' > "$work/3"
printf '\1\1\1\1\0' > "$work/4"
printf '\1\1\1\0\0' > "$work/5"
printf '\1\1\1\2\2\1' > "$work/6"
printf '\1\2\2\3\3\1\2\1\2\1\0' > "$work/7"
{
    printf '\1\40'
    for next in {1..31}; do
        symbol=$(printf '\\%o' $((2 * next + 1)))
        printf '%b' "\\01\\02$symbol$symbol"
    done
    printf '\1\0'
} > "$work/long"
printf '\n' > "$work/empty_note"

# readings PROGRAM
readings() {
    "$1" examples/delivery.grammar examples/delivery.notes bench/cases/delivery.txt
    "$1" examples/g1.grammar bench/cases/g1.notes
    for number in 1 2 3 4 5 6 7; do
        if "$1" "$work/$number" bench/cases/g1.notes; then echo "accepted"; fi
    done
    "$1" "$work/long" "$work/empty_note"
}
readings target/examples/read_notes | expect read_notes
readings target/examples/read_notes_rust | expect read_notes

# Begun, lent again, then a grammar that it was not begun for, a torn file, a rotten one.
keep() {
    target/examples/keep_cache "examples/$1.grammar" "$work/cache" "$2"
}
{
    keep delivery examples/delivery.notes
    keep delivery examples/delivery.notes
    keep g1 bench/cases/g1.notes
    keep g1 bench/cases/g1.notes
    head -c 5000 "$work/cache" > "$work/torn" && mv "$work/torn" "$work/cache"
    keep g1 bench/cases/g1.notes
    printf x | dd of="$work/cache" bs=1 seek=9000 conv=notrunc status=none
    keep g1 bench/cases/g1.notes
} | expect keep_cache

# One batch, and more notes than one batch takes, lines among them that are no notes; grammars that are refused.
for _ in {1..9}; do cat examples/delivery.notes; echo; done > "$work/many"
{
    target/examples/truck examples/g1.grammar bench/cases/g1.notes
    target/examples/truck examples/delivery.grammar "$work/many"
    target/examples/truck "$work/long" "$work/empty_note"
    for number in 1 7; do
        if target/examples/truck "$work/$number" bench/cases/g1.notes; then echo "accepted"; fi
    done
} | expect truck
echo "examples: built, and print what they must"
