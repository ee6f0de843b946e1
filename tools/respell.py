#!/usr/bin/env python3
"""Spells the repository's own definitions, fields and lemmas in snake case, after port.py has run: camelCase and dashes become underscores.

usage: tools/respell.py [--list] [FOLDER]      FOLDER: the repository's top, this one where it is left out; --list shows each old and new name and writes nothing

Own names are those that stand in front of a type in specs/ and in the lemma files of proofs/ (not in proofs/F/, whose names Rattle makes).
Renamed are whole names in .antt files, in ghost lines and clauses of .rt files, and in the file:, old: and new: lines of must-fail edits.
"""

import glob
import os
import re
import sys

# a name of antt: no blank, bracket, dot, comma, semicolon, backtick or quotation mark in it
NAME = r"[^\s(){}\[\].,;:`\"«»=|\\/]+"
DEFINED = re.compile(r"^\s*(?:(?:abbrev|pub|unfoldable|record|data) )*(" + NAME + r")\s*(?:[({].*?[)}]\s*)*:(?:\s|$)")
# lemmas whose name in snake case is that of a definition or of a function of src/: they take _lem
LEMMAS = """
chains-without linked-in set-up-line last-most fast-answer may-rest new-range nodes-in first-free
first-retired fast-given lengths-of capacity-of length-of order-in order-of result-of count-in
header-line put-line put-none put-number-line put-shown put-word-line ranged-cells ring-node run-part
step-turn stepped-cells sweep-one
"""
APART = {name: name.replace("-", "_") + "_lem" for name in LEMMAS.split()}
# names that stand two to a type, or that only a record names
FURTHER = {"outKeys", "outValues", "retiredIn"}
# names that the kit's library has too
KEPT = {"map-append", "not-false"}
# what begins a ghost line or a clause in a .rt file, and what marks one in an edit
CLAUSE = re.compile(r"(pub )?(ghost|requires|ensures|invariant|decreases)\b")
GHOST = re.compile(r"\b(ghost|requires|ensures)\b|⌝|⌜|≡|\.(now|old|new)\b|λ")


def texts(top, *patterns):
    return sorted(p for pattern in patterns for p in glob.glob(os.path.join(top, pattern), recursive=True) if "/out/" not in p)


def read(path):
    with open(path, encoding="utf-8") as f:
        return f.read()


def snake(name):
    name = re.sub(r"(?<=[a-z0-9])([A-Z])", lambda m: "_" + m.group(1).lower(), name) if name[0].islower() else name
    return name.replace("-", "_")


def own_names(top):
    """Names defined in specs/ and in lemma files, that are not spelled as today."""
    found = {}
    for p in texts(top, "crates/*/specs/*.antt", "crates/*/proofs/*.antt"):
        for line in read(p).split("\n"):
            m = DEFINED.match(line)
            if m and not line.lstrip().startswith("--"):
                n = m.group(1)
                if snake(n) != n and re.match(r"[A-Za-z]", n):
                    found.setdefault(n, set()).add(os.path.relpath(p, top))
    return found


def foreign_names(top):
    """Names that come from the kit's libraries, and names that stand in front of a type in proofs/F/."""
    kit, made = set(), set()
    for p in texts(top, "crates/**/*.antt", "crates/**/*.rt"):
        for m in re.finditer(r"^\s*(?:pub )?(?:ghost )?use ([\w.·]+)\.\{([^}]*)\}", read(p), re.M):
            crate = m.group(1).split(".")
            if not (crate[0] == "Rattle" and len(crate) > 1 and os.path.isdir(os.path.join(top, "crates", crate[1]))):
                kit.update(w.strip().split(" as ")[0] for w in m.group(2).split(","))
    for p in texts(top, "crates/*/proofs/*/*.antt"):
        for line in read(p).split("\n"):
            m = DEFINED.match(line)
            if m:
                made.add(m.group(1))
    return kit, made


def renamed(top):
    """Old name -> new name, for each own name that the kit's libraries don't have too."""
    kit, _ = foreign_names(top)
    return {n: APART.get(n, snake(n)) for n in FURTHER.union(own_names(top)) if n not in kit and n not in KEPT}


def replacer(names):
    """A function that puts the new names in place of the old ones, whole names alone."""
    one = re.compile(NAME)
    return lambda text: one.sub(lambda m: names.get(m.group(0), m.group(0)), text)


def source(text, put):
    """A .rt file with the names put into its ghost lines, its clauses and its comments."""
    out, depth = [], 0
    for line in text.split("\n"):
        head = line.lstrip()
        if depth > 0 or CLAUSE.match(head):
            depth += line.count("{") - line.count("}")
            out.append(put(line))
        elif head.startswith("//"):
            out.append(put(line))
        else:
            out.append(line)
        depth = max(depth, 0)
    return "\n".join(out)


def edit(text, put):
    """A must-fail edit with the names put into the pairs on .antt files, and into those on .rt files that stand in a clause."""
    out, antt = [], False
    for line in text.split("\n"):
        if line.startswith("file:"):
            antt = line.rstrip().endswith(".antt")
        ghost = line.startswith(("old:", "new:")) and (antt or GHOST.search(line))
        out.append(put(line) if ghost else line)
    return "\n".join(out)


def main():
    arguments = [a for a in sys.argv[1:] if a != "--list"]
    top = arguments[0] if arguments else os.path.dirname(os.path.dirname(os.path.abspath(__file__)))
    names = renamed(top)
    if "--list" in sys.argv:
        for old in sorted(names):
            print(old, names[old])
        return
    put = replacer(names)
    for paths, turn in (
        (texts(top, "crates/**/*.antt"), put),
        (texts(top, "crates/**/*.rt"), lambda t: source(t, put)),
        (texts(top, "crates/*/must-fail/*.edit", "tests/edits/**/*.edit"), lambda t: edit(t, put)),
    ):
        for p in paths:
            old = read(p)
            new = turn(old)
            if new != old:
                with open(p, "w", encoding="utf-8") as f:
                    f.write(new)


if __name__ == "__main__":
    main()
