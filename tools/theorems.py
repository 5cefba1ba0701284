#!/usr/bin/env python3
"""Moves the theorems that rest on a definition which a must-fail edit changes from specs/ to proofs/: an edit of a definition is
told from a text that cannot be read only where what fails stands in proofs/. A module is moved if it is one of specs/Laws, or
uses one that is, in a crate with such an edit; what a contract names stays. Statements are not changed.

    tools/theorems.py       moves what is not moved yet, and brings every path up to date
"""
import glob
import os
import re

LIST = "tools/theorems.txt"
# Other files of theorems that rest on such a definition.
MORE = {
    "adding": ["Internal.WithLaws"],
    "asking": ["Internal.CountNodes"],
    "authalic": ["Internal.SumLaws", "Internal.AnswerLaws"],
    "comparing": ["Internal.Cover", "Internal.Grammar", "Internal.Sums"],
    "corner": ["Internal.Across", "Internal.Codes"],
    "encoding": ["Internal.Spelling"],
}


def read(f):
    with open(f) as h:
        return h.read()


def write(f, text):
    os.makedirs(os.path.dirname(f), exist_ok=True)
    with open(f, "w") as h:
        h.write(text)


def crates_with_edits():
    return sorted({e.split("/")[1] for e in glob.glob("crates/*/must-fail/*.edit") if re.search(r"^file: (specs|proofs/(Laws|Internal))/", read(e), re.M)})


def modules(crate):
    start = f"crates/{crate}/specs/"
    return {f[len(start) : -5].replace("/", "."): read(f) for f in glob.glob(start + "**/*.antt", recursive=True)}


def names_in(crate, text, known):
    return {m for m in re.findall(rf"Rattle\.{crate}\.specs\.([\w.]+?)(?=\.\{{|\s|$)", text, re.M) if m in known}


def to_move(crate):
    known = modules(crate)
    uses = {m: names_in(crate, t, known) for m, t in known.items()}
    source = "".join(read(f) for f in glob.glob(f"crates/{crate}/src/**/*.rt", recursive=True))
    needed = names_in(crate, source, known)
    todo = list(needed)
    while todo:
        for m in uses[todo.pop()] - needed:
            needed.add(m)
            todo.append(m)
    moved = {m for m in known if m == "Laws" or m.startswith("Laws.")} | (set(MORE.get(crate, ())) & set(known))
    grown = True
    while grown:
        more = {m for m in known if m not in moved and m not in ("Lib", "Internal") and uses[m] & moved}
        grown = bool(more)
        moved |= more
    stays = moved & needed
    if "Laws" in moved and any(m.startswith("Laws.") for m in stays):
        moved.discard("Laws")
    return sorted(moved - needed)


def node_lines(f):
    return read(f).splitlines() if os.path.exists(f) else []


def move(crate, moved):
    specs, proofs = f"crates/{crate}/specs/", f"crates/{crate}/proofs/"
    for m in moved:
        path = m.replace(".", "/") + ".antt"
        text = read(specs + path)
        if os.path.exists(proofs + path):
            text = text.rstrip("\n") + "\n" + ("\n" if not read(proofs + path).startswith("pub mod") else "") + read(proofs + path)
        write(proofs + path, text)
        os.remove(specs + path)
    for m in moved:
        *above, name = m.split(".")
        if ".".join(above) in moved:
            continue
        node = "/".join(above) + ".antt" if above else "Lib.antt"
        lines = [l for l in node_lines(specs + node) if l not in (f"pub mod {name}", f"mod {name}")]
        if lines:
            write(specs + node, "\n".join(lines) + "\n")
        elif node != "Lib.antt":
            os.remove(specs + node)
            write(specs + "Lib.antt", "\n".join(l for l in node_lines(specs + "Lib.antt") if l != f"pub mod {above[-1]}") + "\n")
        else:
            write(specs + node, "")
        lines = [l for l in node_lines(proofs + node) if l not in (f"pub mod {name}", f"mod {name}")]
        write(proofs + node, "\n".join([f"pub mod {name}"] + lines) + "\n")
        for k in range(len(above)):
            up = "/".join(above[:k]) + ".antt" if k else "Lib.antt"
            lines = [l for l in node_lines(proofs + up) if l not in (f"pub mod {above[k]}", f"mod {above[k]}")]
            write(proofs + up, "\n".join([f"pub mod {above[k]}"] + lines) + "\n")


def repath(pairs):
    byname = {}
    for crate, m in pairs:
        byname.setdefault(crate, set()).add(m)
    path = re.compile(r"Rattle\.(\w+)\.specs\.((?:\w+\.)*\w+)")
    page = re.compile(r"\b(\w+)/specs/([\w/]+)\.antt")

    def turned(m):
        crate, rest = m.group(1), m.group(2)
        words = rest.split(".")
        for n in range(len(words), 0, -1):
            if ".".join(words[:n]) in byname.get(crate, ()):
                return f"Rattle.{crate}.proofs.{rest}"
        return m.group(0)

    def paged(m):
        return f"{m.group(1)}/proofs/{m.group(2)}.antt" if m.group(2).replace("/", ".") in byname.get(m.group(1), ()) else m.group(0)

    for pattern in ("crates/**/*.antt", "crates/**/*.rt", "crates/**/*.edit", "docs/**/*.md", "README.md"):
        for f in glob.glob(pattern, recursive=True):
            if "/out/" in f:
                continue
            old = read(f)
            new = page.sub(paged, path.sub(turned, old))
            if f.endswith(".edit"):
                crate = f.split("/")[1]
                new = re.sub(r"^file: specs/([\w/]+)\.antt", lambda m: f"file: proofs/{m.group(1)}.antt" if m.group(1).replace("/", ".") in byname.get(crate, ()) else m.group(0), new, flags=re.M)
            if new != old:
                write(f, new)


def main():
    done = {tuple(l.split()) for l in node_lines(LIST)}
    for crate in crates_with_edits():
        moved = [m for m in to_move(crate)]
        if moved:
            move(crate, moved)
            done |= {(crate, m) for m in moved}
    write(LIST, "".join(f"{c} {m}\n" for c, m in sorted(done)))
    repath(done)


main()
