#!/usr/bin/env bash
# The program audit_cache on inputs that its example file does not have: each is an input and the line that must come of it.
# shellcheck disable=SC2059
# Grammars are written as printf's escapes, so they stand in its format.
set -euo pipefail
cd "$(dirname "$0")/.."
program=audit_cache
. tests/support/expect.sh
example=crates/audit_cache/stdin
work=$(mktemp -d)
trap 'rm -rf "$work"' EXIT

# number N...: each number as four bytes, the lowest first.
number() {
    local n
    for n in "$@"; do
        printf "$(printf '\\x%02x' $((n & 255)) $((n >> 8 & 255)) $((n >> 16 & 255)) $((n >> 24 & 255)))"
    done
}

# zeros COUNT: so many words that are 0.
zeros() {
    head -c $((4 * $1)) /dev/zero
}

# cache: the words of the example, G1's after note 1 2: 3,968 of them, behind the number 14 and as many bytes of grammar.
tail -c +19 "$example" > "$work/cache"
cache() {
    cat "$work/cache"
}

# begun LENGTH: the words of a cache of that length that has just begun for G1.
begun() {
    number 0 "$1" 0 14
    zeros 60
    number 16908802 67305987 33685762 1026
    zeros $(($1 - 68))
}

# changed AT WORD: the example's words with another one at this place.
changed() {
    head -c $((4 * $1)) "$work/cache"
    number "$2"
    tail -c +$((4 * $1 + 5)) "$work/cache"
}

g1='\2\2\2\1\3\2\3\4\2\1\2\2\2\4'

expect "no input" "no 1 0$line" < /dev/null
expect "three bytes" "no 1 0$line" < <(printf '\16\0\0')
expect "the number alone" "no 1 0$line" < <(number 14)
expect "no grammar bytes, and a cache" "no 1 0$line" < <(number 0; cache)
expect "a grammar and no cache" "no 12 0$line" < <(number 14; printf "$g1")
expect "a grammar that is cut" "no 1 13$line" < <(head -c 17 "$example")
expect "fewer bytes than the number says, and yet a grammar" "no 12 0$line" < <(number 5000; printf "$g1")
expect "the example" "yes$line" < "$example"
expect "the example in pieces" "yes$line" < <(head -c 2 "$example"; sleep 0.1; tail -c +3 "$example" | head -c -9000; sleep 0.1; tail -c 9000 "$example")
expect "a cache that has begun" "yes$line" < <(number 14; printf "$g1"; begun 2368)
expect "malformed" "no 2 0$line" < <(number 2; printf '\201\0'; cache)
expect "a limit broken" "no 3 0$line" < <(number 1; printf '\145'; cache)
expect "an unknown symbol" "no 4 4$line" < <(number 5; printf '\1\1\1\1\0'; cache)
expect "a byte behind the grammar" "no 5 14$line" < <(number 15; printf "$g1"'\0'; cache)
expect "a nonterminal that derives nothing" "no 6 0$line" < <(number 6; printf '\1\1\1\2\2\1'; cache)
expect "left recursion" "no 7 0$line" < <(number 5; printf '\1\1\1\1\1'; cache)
expect "a cache one word too short" "no 12 0$line" < <(number 14; printf "$g1"; begun 2367)
expect "another grammar's cache" "no 13 0$line" < <(number 4; printf '\1\1\1\0'; cache)
expect "a word less than it was begun with" "no 13 0$line" < <(head -c -4 "$example")
expect "a word more" "no 13 0$line" < <(cat "$example"; zeros 1)
expect "a last word that is cut" "no 13 0$line" < <(head -c -1 "$example")
expect "one byte of a word more" "no 13 0$line" < <(cat "$example"; printf '\0')
expect "a cut word of a short cache" "no 13 0$line" < <(number 14; printf "$g1"'\0')
expect "a cut word, and a grammar that is refused" "no 6 0$line" < <(number 6; printf '\1\1\1\2\2\1\0')
expect "another alternative" "no 19 0$line" < <(number 14; printf "$g1"; changed 2690 1)
expect "word 0" "no 19 0$line" < <(number 14; printf "$g1"; changed 0 1)
expect "the last word" "no 19 0$line" < <(number 14; printf "$g1"; changed 3967 1)
expect "a record forgotten" "yes$line" < <(number 14; printf "$g1"; changed 2690 0)
expect "the longest cache" "yes$line" < <(number 14; printf "$g1"; begun 329728)
expect "the longest cache, its last word not 0" "no 19 0$line" < <(number 14; printf "$g1"; begun 329728 | head -c -1; printf '\1')
expect "one word longer" "no 13 0$line" < <(number 14; printf "$g1"; begun 329729)
expect "one byte longer" "no 13 0$line" < <(number 14; printf "$g1"; begun 329728; printf '\0')
expect "far longer" "no 13 0$line" < <(number 14; printf "$g1"; begun 1000000)
expect "far longer, and a grammar that is refused" "no 7 0$line" < <(number 5; printf '\1\1\1\1\1'; begun 400000)
{ printf "$g1"; head -c 5000 /dev/zero; } > "$work/long"
expect "4,096 bytes of grammar" "no 5 14$line" < <(number 4096; head -c 4096 "$work/long"; cache)
expect "4,097 bytes of grammar" "no 5 14$line" < <(number 4097; head -c 4097 "$work/long"; cache)
expect "a number of four bytes" "no 5 14$line" < <(number 4294967295; cat "$work/long"; cache)
fails "a write that fails" < "$example" > /dev/full
fails "a reading that fails" < tests
echo "audit_cache: $tried inputs, each answered as it must be"
