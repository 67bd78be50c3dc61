#!/usr/bin/env bash
# The program notes on inputs that its example file does not have: each is an input and the lines that must come of it.
set -euo pipefail
cd "$(dirname "$0")/.."
program=notes
. tests/support/expect.sh

expect "no input" "" < /dev/null
expect "an empty line" "no 10 0$line" < <(printf '\n')
expect "two empty lines" "no 10 0${line}no 10 0$line" < <(printf '\n\n')
expect "a last line with its end" "ok 1 2$line" < <(printf '1 2\n')
expect "a last line without" "ok 1 2$line" < <(printf '1 2')
expect "lines in pieces" "ok 1 2${line}ok 2 2$line" < <(printf '1'; sleep 0.1; printf ' 2\n1 '; sleep 0.1; printf '2 2')
expect "a long line between" "ok 1 1${line}bad${line}ok 1 1$line" < <(printf '1\n'; head -c 1000000 /dev/zero | tr '\0' '1'; printf '\n1\n')
expect "a long last line" "bad$line" < <(head -c 4096 /dev/zero | tr '\0' ' ')
expect "a line that ends with a reading" "bad${line}ok 1 1$line" < <(head -c 4095 /dev/zero | tr '\0' '1'; printf '\n1')
fails "a write that fails" < <(printf '1 2\n') > /dev/full
fails "a reading that fails" < tests
echo "notes: $tried inputs, each answered as it must be"
