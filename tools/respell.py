#!/usr/bin/env python3
"""Brings this repository's own definitions and lemmas to the spelling of today's Rattle: words in snake case.

usage: tools/respell.py, at the top, once, after the port's script.

Every name that a file of specs/ or proofs/ declares and that begins in lower case and has a capital inside, as 'lowBound',
is spelled 'low_bound', wherever it stands as a whole word: in .antt files, in clauses and 'ghost use' items of .rt files, in
comments, and in the pages. A part of a name behind a dash is a word of its own, as in 'orBlank-is'. A field of a record of
specs/ has no dash, as 'totals_fit' for 'totals-fit', but for 'on-accepted-start', which would fall together with a definition.
Types, modules and functions of src/ keep their names, and so do Q, REV and ER, the guidance's own symbols. A private lemma that
had the new name of its definition gets '_lem' behind it. It prints each pair, and each new name that a file had already.
"""

import glob
import re
import sys

WORD = re.compile(r"[^\s(){}.;,@\"«»\[\]`/:|*⟨⟩⌜⌝]+")
DECLARED = re.compile(r"^\s*(?:(?:abbrev|unfoldable|pub|data|record|rule)\s+)*([^\s(){}:=;,λ]+)(?:\s+[({].*?)?\s+:(?:\s|$)")
SYMBOLS = {"REV", "ER", "is_T", "on-accepted-start"}
# a lemma whose definition gets its name
LEMMAS = {
    "crates/energy/proofs/Shares.antt": "share_from",
    "crates/host/proofs/EveryCall.antt": "call_fits",
    "crates/ledger/proofs/Traders.antt": "by_one",
}


def part_of(part):
    if not re.match("[a-z]", part) or not re.search("[A-Z]", part):
        return part
    out = re.sub(r"([a-z0-9])([A-Z])", r"\1_\2", part)
    return re.sub(r"[A-Z]+", lambda m: m.group(0).lower(), out)


def respelled(name):
    return "-".join(part_of(p) for p in name.split("-"))


def antt_files():
    return sorted(glob.glob("crates/*/specs/**/*.antt", recursive=True) + glob.glob("crates/*/proofs/**/*.antt", recursive=True))


def main():
    table = {}
    for path in antt_files():
        for line in open(path, encoding="utf-8"):
            m = DECLARED.match(line)
            if not m or m.group(1) in SYMBOLS:
                continue
            new = respelled(m.group(1))
            if "/specs/" in path and line.startswith(" "):
                new = new.replace("-", "_")
            if new != m.group(1):
                table[m.group(1)] = new
    clash = []
    files = antt_files() + sorted(glob.glob("crates/*/src/*.rt")) + ["README.md"] + sorted(glob.glob("docs/**/*.md", recursive=True))
    for path in files:
        text = open(path, encoding="utf-8").read()
        own = LEMMAS.get(path)
        if own:
            text = WORD.sub(lambda m: own + "_lem" if m.group(0) == own else m.group(0), text)
        words = set(WORD.findall(text))
        if path.endswith(".antt"):
            clash += [(path, w, table[w]) for w in words if w in table and table[w] in words]
        new = WORD.sub(lambda m: table.get(m.group(0), m.group(0)), text)
        if (new != text or own) and "--dry" not in sys.argv:
            open(path, "w", encoding="utf-8").write(new)
    for old in sorted(table):
        print(old, table[old])
    for path, old, new in clash:
        print(f"falls together: {path}: {old} -> {new}", file=sys.stderr)


main()
