#!/usr/bin/env python3
"""Spells this repository's own definitions and lemmas as Rattle does: functions, fields, variables and lemmas in
snake case, facts in upper camel case, and a lemma that would have its function's name with _lem after it.
Runs at the top, on what port.py left. It changes names alone, in crates/ and docs/."""
import glob
import re

# Library names in mixed case, and words of the text that are no names of ours.
KEPT = {"iPhone"}
FACTS = {"sendsTaken": "SendsTaken"}
# lemma: the crates in which it stands beside the function whose name it would have
LEMMAS = {"as_read": ["scan_table"], "item_by": ["decisions"], "no_kind": ["model"], "set_line": ["tight"], "told_in": ["decisions", "machine"]}

TOKEN = re.compile(r"[A-Za-z_][A-Za-z0-9_'\-₀-₉]*")
MIXED = re.compile(r"^[a-z](?:[A-Z]|[A-Za-z0-9_'\-₀-₉]*?[a-z0-9][A-Z])")


def snake(name):
    return re.sub(r"(?<=[a-z0-9])([A-Z])", lambda m: "_" + m.group(1).lower(), name)


def respelled(name, crate):
    if name in FACTS:
        return FACTS[name]
    if crate in LEMMAS.get(name, []):
        return name + "_lem"
    if MIXED.match(name) and name not in KEPT:
        return snake(name)
    return name


def turn(path, known=None):
    text = open(path).read()
    crate = path.split("/")[1] if path.startswith("crates/") else ""
    def one(m):
        new = respelled(m.group(), crate)
        return new if known is None or new in known else m.group()
    out = TOKEN.sub(one, text)
    if out != text:
        open(path, "w").write(out)
    return out


def main():
    known = set()
    for kind in ("crates/*/specs/**/*.antt", "crates/*/proofs/**/*.antt", "crates/*/src/*.rt", "crates/*/must-fail/*.edit"):
        for path in sorted(glob.glob(kind, recursive=True)):
            known.update(TOKEN.findall(turn(path)))
    for path in sorted(glob.glob("docs/*.md") + ["README.md"]):
        turn(path, known)


main()
