#!/usr/bin/env python3
"""Brings this repository's own definitions and lemmas to snake case: in specs/, proofs/, the clauses of src/ and the must-fail edits.

usage: tools/respell.py        at the top of the repository, once, right after port.py

Functions of src/, exported C names and strings keep their names; so do types, modules and sizes in capitals.
It stops, and writes nothing, where a new name already is a word of a file that has the old one. A function of src/ may have the
name of its definition: they are told apart by where they stand, so the files of one function's proof are passed over.
"""

import glob
import re
import sys

TOKEN = r"[^\s(){}\[\];,.:«»\"|&!*/<>=+`]+"
CAMEL = re.compile(r"[a-z][a-z0-9]*[A-Z]\w*'*")
BY_HAND = {"doFShell": "do_fshell"}
# Lemmas that would have the new name of the definition that they are about.
LEMMAS = {
    "crates/model/proofs/Unused.antt": ["zero_row"],
    "crates/demands/proofs/Demands.antt": ["no_byte", "no_key"],
}


def texts():
    for part in ("specs", "proofs"):
        yield from glob.glob(f"crates/*/{part}/**/*.antt", recursive=True)


def sources():
    return glob.glob("crates/*/src/**/*.rt", recursive=True)


def snake(name):
    return BY_HAND.get(name) or re.sub(r"(?<=[a-z0-9])(?=[A-Z])|(?<=[a-z])(?=\d+$)", "_", name).lower()


def spoken(text):
    """The text without strings and comments."""
    return re.sub(r"--[^\n]*", "", re.sub(r'"[^"\n]*"', '""', text))


def names():
    found = set()
    for path in texts():
        for token in re.findall(TOKEN, spoken(open(path, encoding="utf-8").read())):
            found |= {part for part in token.split("-") if CAMEL.fullmatch(part)}
    return {name: snake(name) for name in sorted(found)}


def turned(text, table):
    def token(it):
        return "-".join(table.get(part, part) for part in it[0].split("-"))

    return re.sub(TOKEN, token, text)


def lines_turned(text, table):
    """Turns an antt file, line by line: strings stay."""
    parts = re.split(r'("[^"\n]*")', text)
    return "".join(it if n % 2 else turned(it, table) for n, it in enumerate(parts))


def falls_together(table):
    met = []
    for path in (it for it in texts() if not it.endswith("/Proof.antt")):
        tokens = set(re.findall(TOKEN, spoken(open(path, encoding="utf-8").read())))
        tokens -= set(LEMMAS.get(path, []))
        met += [f"{path}: {old} and {new}" for old, new in table.items() if old in tokens and new in tokens]
    turned_to = {}
    for old, new in table.items():
        turned_to.setdefault(new, []).append(old)
    met += [f"{' and '.join(olds)} become {new}" for new, olds in turned_to.items() if len(olds) > 1]
    return met


def main():
    table = names()
    met = falls_together(table)
    if met:
        print("\n".join(met))
        return 1
    for path in [*texts(), *sources(), *glob.glob("crates/*/must-fail/*.edit")]:
        old = open(path, encoding="utf-8").read()
        lemmas = {name: f"{name}_lem" for name in LEMMAS.get(path, [])}
        new = lines_turned(lines_turned(old, lemmas), table)
        if new != old:
            open(path, "w", encoding="utf-8").write(new)
    print(f"{len(table)} names")
    return 0


if __name__ == "__main__":
    sys.exit(main())
