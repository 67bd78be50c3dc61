#!/usr/bin/env bash
# The script run and what it shows of proving, over an rt that proves nothing: in a folder of its own, from another folder.
set -euo pipefail
cd "$(dirname "$0")/.."
work=$(mktemp -d)
trap 'rm -rf "$work"' EXIT
mkdir -p "$work/repository" "$work/bin" "$work/elsewhere"
cp -r run tools crates.txt "$work/repository"
mkdir -p "$work/repository/crates/notes/src"
touch "$work/repository/crates/notes/src/main.rt"
printf '1 2\n' > "$work/elsewhere/mine"
# It takes its time for two crates, and its notes prints what it is given.
cat > "$work/bin/rt" <<'END'
#!/usr/bin/env bash
[ "$1" = run ] || exit 2
mkdir -p out ../base/out
for crate in base notes; do
    echo "rt: chose --jobs 2 for $crate"
    sleep 0.9
    echo "logic=${VERDICT:-proved} functions=1"
done
printf '#!/bin/sh\necho notes:\ncat\n' > out/notes
chmod +x out/notes
[ -z "${VERDICT:-}" ] && out/notes
END
chmod +x "$work/bin/rt"
cd "$work/elsewhere"
export PATH=$work/bin:$PATH

# expect NAME: holds standard input to the wanted lines, times taken out.
expect() {
    sed -E 's/^[0-9]+:[0-9]+ /TIME/' | diff - <(printf '%s\n' "${@:2}") || { echo "run: $1"; exit 1; }
}

crates=$(../repository/tools/knows notes | wc -l)
if ../repository/run missing 2> /dev/null; then echo "run: a file that is not there"; exit 1; fi
[ ! -e ../repository/target ] || { echo "run: proves before it has its file"; exit 1; }
expect "a first run" "Everything is proved before it runs, $crates crates: about a quarter of an hour the first time." \
    "TIME 0 of $crates crates proved, now: base" "TIME 1 of $crates crates proved, now: notes" "notes:" "1 2" \
    < <(../repository/run mine 2>&1)
status=0
said=$(VERDICT=not-proved ../repository/run mine 2>&1) || status=$?
[ "$status" -eq 1 ] || { echo "run: a failure is not told"; exit 1; }
expect "a run that fails" "rt: chose --jobs 2 for base" "logic=not-proved functions=1" "rt: chose --jobs 2 for notes" "logic=not-proved functions=1" \
    < <(grep -v now: <<< "$said")
echo "run: shows what is proved, and takes a file of another folder"
