#!/usr/bin/env bash
# Who looks at the bytes of a grammar, by the text of the code: docs/ARCHITECTURE.md lists every function that takes them, and no other does. In the pass over
# them one function alone indexes them, `Cursor::fetch`, and `Cursor::number` alone calls it, on one cursor after another. All others hand them on whole or ask
# their length.
set -euo pipefail
cd "$(dirname "$0")/.."
# These read typed lines, or standard input into a buffer: their bytes do not count unless they are called a grammar.
typed="splitter lines notes tokens check_grammar audit_cache allstar_c::allstar_split"
found=$(mktemp)
trap 'rm -f "$found"' EXIT

# For each function: the bytes that it takes, and what it does with them. Comments and contracts are left out.
awk -v typed="$typed" '
    BEGIN { n = split(typed, names, " "); for (k = 1; k <= n; k++) is_typed[names[k]] = 1 }

    # What a function does with the parameter called name.
    function uses(body, name,    at, before, behind, rest) {
        rest = " " body
        while (match(rest, "[^a-z_A-Z0-9.]" name "[^a-z_A-Z0-9]")) {
            at = RSTART; before = substr(rest, 1, at); behind = substr(rest, at + 1 + length(name))
            gsub(/ /, "", before)
            rest = behind; sub(/^ */, "", behind)
            if (behind ~ /^::/ || behind ~ /^\.len\(\)/) continue
            if (behind ~ /^\[/) { print "indexes", who; continue }
            if (before ~ /[(,]$/ && behind ~ /^[,)]/) continue
            print "other", who
        }
    }

    function close_function(    list, n, k, params, name, body, calls) {
        if (who == "") return
        params = text; sub(/\).*/, "", params); sub(/^[^(]*\(/, "", params)
        body = text; sub(/^[^)]*\)/, "", body)
        calls = body
        while (match(calls, /[a-z_A-Z0-9:.]*fetch\(/)) {
            print "fetches", who " by " substr(calls, RSTART, RLENGTH - 1)
            calls = substr(calls, RSTART + RLENGTH)
        }
        n = split(params, list, ",")
        for (k = 1; k <= n; k++) if (list[k] ~ /: *&(mut )?\[u8\]/) {
            name = list[k]; sub(/:.*/, "", name); gsub(/[^a-z_0-9]/, "", name)
            if (name != "grammar" && (crate in is_typed || who in is_typed)) continue
            print "takes", who
            uses(body, name)
        }
        who = ""
    }

    # What is left of a line in which a contract stands; contract is how many of its braces are open.
    function behind_contract(line,    k, c) {
        for (k = 1; k <= length(line); k++) {
            c = substr(line, k, 1)
            if (c == "{") contract++
            if (c == "}" && --contract == 0) return substr(line, k + 1)
        }
        return ""
    }

    FNR == 1 { close_function(); split(FILENAME, path, "/"); crate = path[2]; type = ""; contract = 0 }
    {
        sub(/(^|[ \t])\/\/.*/, "")
        # A contract stands between the braces behind `requires` or `ensures`, and may go over several lines.
        if (contract || $0 ~ /^[ \t]*(requires|ensures)( [a-z_]+)? \{/) $0 = behind_contract($0)
    }
    /^impl / { close_function(); type = $2 }
    /^}/ { close_function(); type = "" }
    /(^|[ \t])fn [a-z_0-9]+(<[^(]*>)?\(/ {
        close_function()
        called = $0; sub(/^.*fn /, "", called); sub(/[<(].*/, "", called)
        who = (type == "" ? crate : type) "::" called; text = ""
        sub(/^.*fn /, "")
    }
    { text = text " " $0 }
    END { close_function() }' crates/*/src/*.rt > "$found"

# of WHAT: the functions of which that was found.
of() {
    sed -n "s/^$1 //p" "$found"
}

# same WHAT WANTED FOUND: two lists of functions, a line each, are the same.
same() {
    [ "$2" != "$3" ] || return 0
    echo "bytes: $1"
    diff <(echo "$2") <(echo "$3") | sed -n 's/^< \(.\)/    only wanted: \1/p; s/^> \(.\)/    only found: \1/p'
    exit 1
}

section=$(awk '/^## / { inside = /^## Who looks at the grammar/ } inside' docs/ARCHITECTURE.md)
listed=$(grep -oE '`[A-Za-z_]+::[a-z_0-9]+`' <<< "$section" | tr -d '`' | LC_ALL=C sort -u)
taking=$(of takes | LC_ALL=C sort -u)
same "docs/ARCHITECTURE.md lists other functions than those that take a grammar's bytes" "$listed" "$taking"
same "bytes of a grammar are neither handed on whole, nor asked their length, nor indexed" "" "$(of other | LC_ALL=C sort -u)"
same "bytes of a grammar are indexed elsewhere than once in Cursor::fetch" "Cursor::fetch" "$(of indexes | grep -v '^words::')"
same "words of a cache are made of a grammar's bytes elsewhere than in byte_at and word_at" "words::byte_at
words::word_at" "$(of indexes | grep '^words::' | LC_ALL=C sort -u)"
# A fetch whose cursor is thrown away would not be counted: each is made on the cursor that the last one gave.
same "fetch is called otherwise than three times, in Cursor::number, each time on another cursor" "Cursor::number by self.fetch
Cursor::number by behind1.fetch
Cursor::number by behind2.fetch" "$(of fetches)"
echo "bytes: $(wc -l <<< "$taking") functions take a grammar's bytes, those that are listed; one fetches them for the pass"
