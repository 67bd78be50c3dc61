#!/usr/bin/env bash
# Names that the documents put between backquotes exist. A name with a slash or an ending is a path, or the end of one, with or without its ending, or a
# crate and a must-fail edit of it; any other name is a word of the crates, the tests, the tools or the interfaces, or a file. Names with a part in capitals
# (NAME, LABEL, NN) stand for any, and what target/ and out/ hold is not looked at. docs/PORT.md and docs/DESIGN-PASS.md tell what things
# were called, so they are left out.
set -euo pipefail
cd "$(dirname "$0")/.."
kept=(crates tests bench include rust examples man tools docs crates.txt .ci run test mutants Makefile)
known=$(mktemp)
trap 'rm -f "$known"' EXIT
{
    grep -rIhoE "[A-Za-z0-9_?'₀→-]+" "${kept[@]}" --exclude='*.md' --exclude-dir=out
    # paths, and every end of one; edits by crate and label
    find "${kept[@]}" -name out -prune -o -print | sed -E 's|^crates/([a-z_]+)/must-fail/([a-z_0-9]+)\.edit$|\1/\2|' | awk '
        { for (path = $0; path != ""; path = rest) {
            print path; print path "/"; bare = path; if (sub(/\.[a-z]+$/, "", bare)) print bare
            cut = index(path, "/"); rest = cut ? substr(path, cut + 1) : "" } }'
} | LC_ALL=C sort -u > "$known"
wrong=0
while IFS=: read -r document name; do
    part=${name#./}
    part=${part#../}
    case $part in
        target/* | out/* | *NAME* | *LABEL* | *NN* | *FUNCTION*) continue ;;
        [A-Z]*.[a-z]*[!.t])
            # a constructor behind its type
            grep -qxF -- "${part%%.*}" "$known" && grep -qxF -- "${part#*.}" "$known" && continue
            ;;
        [a-z].[a-z]*)
            # what is known of whatever the letter stands for
            grep -qxF -- "${part#*.}" "$known" && continue
            ;;
    esac
    grep -qxF -- "${part#../}" "$known" && continue
    echo "names: $document: \`$name\` is nowhere"
    wrong=1
done < <(grep -HoE '`[A-Za-z.][A-Za-z0-9_./?'"'"'₀→-]*`' CONTRIBUTING.md docs/*.md tests/README.md --exclude=docs/PORT.md --exclude=docs/DESIGN-PASS.md \
    | sed -E 's/`//g' | LC_ALL=C sort -u)
[ "$wrong" = 0 ]
echo "names: all that the documents name is there"
