#!/usr/bin/env bash
# Everything that a document shows, run: in each Markdown file the blocks ```console are sessions (a line `$ COMMAND`, then what it
# prints), and a block ```LANGUAGE NAME is the file NAME in the folder where the session is then. A document's blocks run in order in one
# shell, which starts in the repository, with an empty home.
set -euo pipefail
cd "$(dirname "$0")/.."
work=$(mktemp -d)
trap 'rm -rf "$work"' EXIT
export RUSTUP_HOME=${RUSTUP_HOME:-${HOME:-}/.rustup} CARGO_HOME=${CARGO_HOME:-${HOME:-}/.cargo} HOME=$work/home
shown=0
while IFS= read -r document; do
    awk '
        /^```/ && inside { inside = 0; next }
        /^```console$/ { inside = 1; next }
        /^```[a-z]+ [^ ]+$/ { inside = 1; print "$ file " $2; next }
        inside' "$document" > "$work/session"
    [ -s "$work/session" ] || continue
    rm -rf "$HOME" && mkdir "$HOME"
    tests/session "$work/session" || { echo "documents: $document shows something else"; exit 1; }
    shown=$((shown + $(grep -c '^\$ ' "$work/session")))
done < <(find . -name '*.md' -not -path './target/*' -not -path './.git/*' | sort)
echo "documents: all that they show was run, $shown commands and files"
