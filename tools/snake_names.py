#!/usr/bin/env python3
"""Respells the names of definitions and lemmas, at the top of the repository, once: twoWords becomes two_words in each .antt file, and in the .rt files
(clauses, imports and comments of them; no function or field of src/ has such a name). Where the new spelling was taken by another name of the same
file, that other name (OTHERS) gives way first."""
import os
import re

WORD = re.compile(r"[^\s(){}\[\],;.:→λ↦|@\"`&]+")
OTHERS = [
    # (file or folder, old, new): a lemma or a field that stands beside a definition of the same words
    ("crates", r"(?<=\.)end_mark(?![\w'-])", "marked_end"),
    ("crates/grammar/specs/inside/Ordered.antt", "pub end_mark :", "pub marked_end :"),
    ("crates/grammar/proofs/OrderedLaws.antt", "end_mark = ap", "marked_end = ap"),
    ("crates/derivation/proofs", r"(?<![\w.])run_call(?![\w'-])", "run-over_call"),
    ("crates/filtering/proofs", r"(?<![\w.])run_call(?![\w'-])", "run-over_call"),
    ("crates/plain/proofs", r"(?<![\w.])run_call(?![\w'-])", "run-over_call"),
    ("crates/search/proofs", r"(?<=[{ ])tag_in(?=[},])|^tag_in(?= N)|(?<=pub )tag_in(?= :)|(?<=, )tag_in(?= _)", "tag-inside"),
    ("crates/learning/proofs/AdvanceLaws.antt", r"(?<![\w.])passes_at(?![\w'-])", "passes-here"),
]


def texts(top, ends):
    for folder, dirs, files in os.walk(top):
        dirs[:] = sorted(d for d in dirs if d != "out")
        for f in sorted(files):
            if f.endswith(ends):
                yield os.path.join(folder, f)


def snake(word):
    parts = word.split("-")
    return "-".join(re.sub(r"(?<=[a-z0-9])[A-Z]", lambda m: "_" + m.group(0).lower(), p) if re.match("[a-z]", p) else p for p in parts)


def main():
    for top, old, new in OTHERS:
        for p in [top] if top.endswith(".antt") else texts(top, (".antt",)):
            t = open(p, encoding="utf-8").read()
            u = re.sub(old, new, t, flags=re.M)
            if u != t:
                open(p, "w", encoding="utf-8").write(u)
                print(p, old, new)
    names = set()
    for p in texts("crates", (".antt",)):
        for line in open(p, encoding="utf-8"):
            if not line.lstrip().startswith("--"):
                names |= {w for w in WORD.findall(line) if re.match(r"[a-z][^-]*[a-z0-9][A-Z]", w) or re.match(r"[a-z].*-[a-z][\w]*[a-z0-9][A-Z]", w)}
    turn = {w: snake(w).replace("get_d", "get_or") for w in names}
    for p in texts("crates", (".antt", ".rt")):
        t = open(p, encoding="utf-8").read()
        u = WORD.sub(lambda m: turn.get(m.group(0), m.group(0)), t)
        if u != t:
            open(p, "w", encoding="utf-8").write(u)
    print(len(turn), "names")


main()
