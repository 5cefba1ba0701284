#!/usr/bin/env python3
"""Brings the repository's own definitions and lemmas to snake case: `pathOf` becomes `path_of`, in
specs/, proofs/, the clauses and comments of src/, the must-fail edits, and the code of the pages.
Types, modules, C names, strings, and names of one letter and a capital stay as they are.

    tools/respell.py            respells every file
    tools/respell.py --look     says only which names would fall together, and where
"""
import glob
import re
import sys

# A name that begins small and has a capital in it; `-` and `'` belong to a name, and so do its earlier and later parts.
NAME = re.compile(r"(?<![\w\"])([a-z][a-z0-9]*(?:_[a-z0-9]+)*[A-Z][\w]*)")
STRING = re.compile(r'b?"(?:[^"\\\n]|\\.)*"|b?\'(?:[^\'\\\n]|\\.)\'')
FILES = ["crates/*/src/**/*.rt", "crates/*/specs/**/*.antt", "crates/*/proofs/**/*.antt", "crates/*/must-fail/*.edit"]
PAGES = ["README.md", "docs/*.md", "docs/changes/*.md"]
# What is spelled so outside the repository, or in C.
FOREIGN = {"zphi2pix"}
# Lemmas that would get their function's name get `_lem`: in these crates' specs/ and proofs/, where a lemma is not part of a path.
LEMMAS = {
    "whole_cells": "*",
    "cell_as": "*",
    "lies_within": "*",
    "all_digits": "name",
    "is_digit": "name",
    "first_kind": "*",
    "held_after": "track",
    "in_order": "entries",
}


def snake(name):
    if name in FOREIGN or re.fullmatch(r"[a-z][A-Z]", name):
        return name
    return re.sub(r"_+", "_", re.sub(r"([A-Z]+)", lambda m: "_" + m.group(1).lower(), name)).rstrip("_")


def respelled(text):
    return NAME.sub(lambda m: snake(m.group(1)), text)


def lemmas_apart(f, text):
    for name, crate in LEMMAS.items():
        if f.endswith(".antt") and (crate == "*" or f.startswith(f"crates/{crate}/")):
            text = re.sub(rf"(?<![\w.'-]){name}(?![\w.'-])", name + "_lem", text)
    return text


def outside_strings(text):
    out, at = [], 0
    for m in STRING.finditer(text):
        out += [respelled(text[at : m.start()]), m.group(0)]
        at = m.end()
    return "".join(out + [respelled(text[at:])])


def code_of_page(text):
    return re.sub(r"`[^`\n]+`", lambda m: respelled(m.group(0)), text)


def files(patterns):
    return sorted(f for p in patterns for f in glob.glob(p, recursive=True))


def look():
    for f in files(FILES):
        text = open(f).read()
        words = set(re.findall(r"[\w']+", text))
        for old in sorted(set(NAME.findall(text))):
            if snake(old) != old and snake(old) in words:
                print(f"{f}: {old} falls together with {snake(old)}")


def main():
    if "--look" in sys.argv:
        return look()
    for f in files(FILES) + files(PAGES):
        text = open(f).read()
        apart = lemmas_apart(f, text)
        new = code_of_page(text) if f.endswith(".md") else outside_strings(text) if f.endswith((".rt", ".edit")) else respelled(apart)
        if new != text:
            open(f, "w").write(new)


main()
