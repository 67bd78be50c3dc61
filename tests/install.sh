#!/usr/bin/env bash
# Installs into a temporary folder, builds the C examples against it by its pkg-config file, and runs what the manual pages show.
set -euo pipefail
cd "$(dirname "$0")/.."
work=$(mktemp -d)
trap 'rm -rf "$work"' EXIT
prefix=$work/with
make -s install PREFIX="$prefix" > "$work/log" 2>&1 || { cat "$work/log"; exit 1; }

file=$prefix/lib/pkgconfig/allstar.pc
if command -v pkg-config > /dev/null; then
    how="pkg-config"
    flags=$(PKG_CONFIG_PATH=$prefix/lib/pkgconfig pkg-config --cflags --libs allstar)
else
    # Its variables are written as the shell's are.
    how="the shell, since pkg-config is not here"
    flags=$(sed -nE -e '/^[a-z]+=/p' -e 's/^(Cflags|Libs): (.*)/printf "%s " \2/p' "$file" | sh)
fi
# shellcheck disable=SC2086
tests/examples.sh $flags > "$work/log" || { cat "$work/log"; exit 1; }

for program in notes tokens check_grammar audit_cache; do
    page=$prefix/share/man/man1/$program.1
    if grep '@[A-Z]*@' "$page"; then exit 1; fi
    sed -n '/^\.EX/,/^\.EE/ { /^\.E[XE]/d; s/\\e/\\/g; p }' "$page" > "$work/shown"
    PATH=$prefix/bin:$PATH tests/session "$work/shown" || { echo "install: man/$program.1 shows something else"; exit 1; }
done

make -s uninstall PREFIX="$prefix"
left=$(find "$prefix" -type f)
[ -z "$left" ] || { echo "install: left behind: $left"; exit 1; }
echo "install: the examples build against it (flags read by $how), manual pages show what the programs print"
