#!/usr/bin/env bash
# The program tokens on inputs that its example file does not have: each is an input, whose first line is the list, and the lines that must come of it.
set -euo pipefail
cd "$(dirname "$0")/.."
program=tokens
. tests/support/expect.sh

# many BYTE COUNT: so many times that byte.
many() {
    head -c "$2" /dev/zero | tr '\0' "$1"
}

# words COUNT: a list of so many words, without its line's end.
words() {
    seq -f 'w%g' "$1" | paste -sd ' ' | tr -d '\n'
}

expect "no input" "" < /dev/null
expect "a list and no line" "" < <(printf 'kg t\n')
expect "a list without its line's end" "" < <(printf 'kg t')
expect "no list that is one, and no line" "" < <(printf 'kg  t')
expect "an empty list" "2 1$line" < <(printf '\n2 kg\n')
expect "an empty list and an empty line" "$line" < <(printf '\n\n')
expect "two empty lines" "$line$line" < <(printf 'kg\n\n\n')
expect "a last line with its end" "2 35$line" < <(printf 'kg t\n2 kg\n')
expect "a last line without" "2 36$line" < <(printf 'kg t\n2 t')
expect "lines in pieces" "2 35${line}36$line" < <(printf 'k'; sleep 0.1; printf 'g t\n1.'; sleep 0.1; printf '5kg'; sleep 0.1; printf '\nt')
expect "66 words" "35 100 1$line" < <(words 66; printf '\nw1 w66 w67\n')
expect "67 words" "no 17 0${line}no 15 0$line" < <(words 67; printf '\n\001\n'; many a 513)
expect "a word twice" "no 17 0$line" < <(printf 'kg t kg\n2 kg\n')
expect "a blank at the end" "no 17 0$line" < <(printf 'kg \n2 kg\n')
expect "two blanks" "no 17 0${line}no 17 0$line" < <(printf 'kg  t\n2 kg\n\n')
expect "a number in the list" "no 17 0$line" < <(printf 'kg 2\n2 kg\n')
expect "a foreign byte in the list" "no 17 0$line" < <(printf 'kg\r\n2 kg\n')
expect "a line of 1,000,000 bytes between" "2${line}no 15 0${line}35$line" < <(printf 'kg\n1\n'; many a 1000000; printf '\nkg\n')
expect "a last line of 513 bytes" "no 15 0$line" < <(printf 'kg\n'; many ' ' 513)
expect "a reading that ends with the list" "2 1$line" < <(many a 4095; printf '\n2 a')
expect "a list of 65,535 bytes" "1 36$line" < <(many a 65532; printf ' kg\na kg\n')
expect "a list of 65,536 bytes" "no 17 0$line" < <(many a 65533; printf ' kg\na kg\n')
expect "a list of 1,000,000 bytes" "no 17 0${line}no 15 0$line" < <(many a 1000000; printf '\na\n'; many a 513; printf '\n')
fails "a write that fails" < <(printf 'kg\n2 kg\n') > /dev/full
fails "a reading that fails" < tests
echo "tokens: $tried inputs, each answered as it must be"
