#!/usr/bin/env python3
"""Brings the repository's own definitions and lemmas to the spelling of today's Rattle: words in snake case, types and modules in camel case.

usage: tools/respell.py        at the top of the repository, after port.py; a second run changes nothing

Functions of src/, exported C names, strings, inputs and outputs keep their names: they are in snake case already, so only names of antt move.
A lemma whose name would fall together with the word that it is about gets `_lem`, and three names are given by hand below.
"""

import os
import re

CAMEL = re.compile(r"(?<![\w'·])[a-z][a-z0-9_]*[A-Z][A-Za-z0-9_]*")
# Names of the kit, which keep their spelling.
KIT = {"mut_Tells", "mut_slice_Tells", "shr_slice_Tells", "uint_Makes", "uint_Tells", "walk_Meets"}
# What looks like a name of ours in comments and pages, and is none.
NO_NAMES = {"libFuzzer", "kB", "x2C", "x2D", "x0D", "x0A"}
# Names that would fall together with another of ours, or with a tactic.
BY_HAND = {"bytesAfter": "bytes_after_write", "getD": "get_or", "firstOf": "first_met"}
# Lemmas that would have the name of the word that they are about, and one field beside the word that it is about: crate, old, new.
BESIDE = [
    ("text", "code_below", "code_below_lem"),
    ("text", "field_end", "field_end_lem"),
    ("text", "goes_on", "goes_on_lem"),
    ("text", "last_line", "last_line_lem"),
    ("text", "in_order", "in_order_lem"),
    ("claims", "code_below", "code_below_lem"),
    ("claims", "first_cell", "first_cell_lem"),
    ("claims", "every_set", "all_sets"),
    ("machine", "found_after", "found_after_lem"),
    ("order", "rows_before", "rows_before_lem"),
    ("rows", "rows_before", "rows_before_lem"),
    ("sets", "rows_before", "rows_before_lem"),
]


def snake(name):
    if name in KIT | NO_NAMES:
        return name
    return BY_HAND.get(name) or re.sub(r"(?<=[a-z0-9])(?=[A-Z])", "_", name).lower()


def respelled(path, text, first):
    crate = path.split(os.sep)[1] if path.startswith("crates") else ""
    if first and path.endswith(".antt"):
        for where, old, new in BESIDE:
            if where == crate:
                text = re.sub(rf"(?<![\w'·.-]){old}(?![\w'·-])|(?<=\.){old}(?= ?[=:])", new, text)
    # port.py gave this one the name of a tactic.
    text = re.sub(r"(?<![\w'.-])first_of(?![\w'-])", "first_met", text)
    return CAMEL.sub(lambda m: snake(m[0]), text)


def read(path):
    with open(path, encoding="utf-8") as f:
        return f.read()


def main():
    # The names that would fall together move once, while the words beside them still have the old spelling.
    first = "encodeIn" in read(os.path.join("crates", "numbers", "specs", "Numbers.antt"))
    for top in ("crates", "docs", "README.md"):
        paths = [top] if os.path.isfile(top) else [os.path.join(d, f) for d, _, fs in os.walk(top) if f"{os.sep}out" not in d for f in fs]
        for path in sorted(paths):
            if not path.endswith((".antt", ".rt", ".edit", ".md")) or path.endswith("PORT.md"):
                continue
            text = read(path)
            new = respelled(path, text, first)
            if new != text:
                with open(path, "w", encoding="utf-8") as f:
                    f.write(new)


main()
