#!/usr/bin/env bash
# The header compiles clean as C99, C11 and C++17 with all warnings, and says what the library does.
set -euo pipefail
cd "$(dirname "$0")/.."
mkdir -p target/tests
both="-Wall -Wextra -Wpedantic -Werror -Wshadow -Wconversion -Wsign-conversion -Wcast-qual -Wcast-align=strict -Wundef
    -Wformat=2 -Wwrite-strings -Wswitch-enum -Wredundant-decls"
c="$both -Wstrict-prototypes -Wmissing-prototypes -Wold-style-definition -Wc++-compat"
cpp="$both -Wold-style-cast -Wzero-as-null-pointer-constant -Wextra-semi"

# try LANGUAGE STANDARD WARNINGS
try() {
    # shellcheck disable=SC2086
    gcc -x "$1" -std="$2" $3 -I include tests/header.c -x none target/staticlib/liballstar_c.a -o target/tests/header
    target/tests/header || { echo "header: as $2: check $? of tests/header.c failed"; exit 1; }
}

try c c99 "$c"
try c c11 "$c"
if gcc -x c++ -std=c++17 -fsyntax-only /dev/null 2> /dev/null; then
    try c++ c++17 "$cpp"
    echo "header: clean as C99, C11 and C++17"
else
    echo "header: clean as C99 and C11; C++17 was not tried, since gcc has no C++ here"
fi
