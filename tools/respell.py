#!/usr/bin/env python3
"""Respells this repository's own names in specs/, proofs/, clauses and must-fail edits, once, behind port.py.

Words are in snake case and types in camel case; a dash is left only behind the name of a type. A lemma that would
have its function's name ends in _lem. The paper's own names stay: CH, SH, Finished, PRF, the rules, and what it
writes for types (agent, nonce, key, role, msg, event, trace), whose capitals are its constructors (Agent, Nonce,
Key) or the file's types (Role, Event).
"""
import collections
import glob
import os
import re

CRATES = sorted(os.listdir("crates"))
TYPES = {"seenIn": "SeenIn", "only-Spy": "OnlySpy", "Row-holds": "RowHolds"}
# Names that would fall together with a field of the file's header.
APART = {"rowsAt": "rows_from", "eventsAt": "events_from"}
# Lemmas that are spelled already as what a function is to be called.
LEMMAS = {
    "crates/walk/proofs/Paces.antt": {"by_length": "by_length_lem"},
    "crates/closure": {"opens_row": "opens_row_lem"},
    "crates/trace/proofs": {"pair_line": "pair_line_lem", "value_line": "value_line_lem"},
}
NAME = r"[^\s(){}\[\];,.λ:|←\"`]+"


def snake(name):
    return re.sub(r"([a-z0-9])([A-Z])", r"\1_\2", name).lower()


def declared():
    """The own names that specs/ and the lemma files declare, each with the kinds of its declarations."""
    kinds = collections.defaultdict(set)
    head = re.compile(r"^ *((?:pattern |unfoldable |abbrev |pub )*)(data |record )?(%s(?: %s)*?)((?: [({].*?[)}])*) :(?: (.*))?$" % (NAME, NAME))
    for path in glob.glob("crates/*/specs/**/*.antt", recursive=True) + glob.glob("crates/*/proofs/*.antt"):
        for line in open(path):
            if line.strip().startswith("--") or re.match(r"\s*(pub )?(use|mod|open)\b", line):
                continue
            m = head.match(line)
            if m:
                for name in m.group(3).split():
                    kinds[name].add("type" if m.group(2) or re.search(r"Type (\d|\()", m.group(5) or "") else "word")
    return kinds


def table(kinds):
    new = {}
    for name in kinds:
        if name in TYPES:
            new[name] = TYPES[name]
        elif name in APART:
            new[name] = APART[name]
        elif re.match(r"[a-z]", name) and re.search(r"[a-z0-9][A-Z]", name) and "-" not in name:
            new[name] = snake(name)
    taken = set(new.values()) | set(kinds)
    for name in kinds:
        if "-" not in name or name in TYPES:
            continue
        if "type" in kinds.get(name.split("-")[0], ()) and re.match(r"[A-Z][a-z]", name):
            continue
        plain = "_".join(snake(p) if p in new or re.match(r"[a-z]+[A-Z]", p) else p for p in name.split("-"))
        new[name] = plain + "_lem" if plain in taken else plain
    return new


def respell(text, new):
    token = re.compile(r"(?<![\w'\-·])(%s)(?![\w'\-·])" % "|".join(re.escape(n) for n in sorted(new, key=len, reverse=True)))
    return token.sub(lambda m: new[m.group(1)], text)


def main():
    new = table(declared())
    camel = {n: m for n, m in new.items() if "-" not in n}
    for path in sorted(glob.glob("crates/**/*", recursive=True)):
        if not path.endswith((".antt", ".rt", ".edit")) or "/out/" in path:
            continue
        text = open(path).read()
        had = text
        for part, lemmas in LEMMAS.items():
            if path.startswith(part) and path.endswith(".antt"):
                text = respell(text, lemmas)
        text = respell(text, camel if path.endswith(".rt") else new)
        if text != had:
            open(path, "w").write(text)


main()
