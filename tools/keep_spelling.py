#!/usr/bin/env python3
"""In proof files, gives the names that Rattle makes from the code the code's own spelling.

usage: python3 tools/keep_spelling.py        at the top of the repository

A name of src/ that has underscores stood in such names with dashes, as c.add-to and returns-in-err-price; today it
stands as it is written, c.add_to, and the arms of a ? are in_ok and in_err.
"""

import os
import re

WORD = re.compile(r"\b[a-z][a-z0-9]*(?:_[a-z0-9]+)+\b")
KEPT = {"in_ok", "in_err"}


def texts(endings):
    for folder, dirs, files in os.walk("crates"):
        dirs[:] = sorted(d for d in dirs if d not in ("out", "target"))
        for f in sorted(files):
            if f.endswith(endings):
                yield os.path.join(folder, f)


def read(path):
    with open(path, encoding="utf-8") as f:
        return f.read()


def main():
    words = set(KEPT)
    for path in texts((".rt",)):
        for line in read(path).split("\n"):
            if not line.lstrip().startswith(("ghost", "ensures", "requires", "//")):
                words.update(WORD.findall(line))
    words |= {"push_reserved", "as_slice", "from_residual", "is_some", "is_none", "saturating_add", "saturating_sub", "split_first", "checked_add", "with_capacity"}
    table = {w.replace("_", "-"): w for w in words}
    dashed = re.compile(r"[A-Za-z_][A-Za-z0-9_]*(?:[-+][A-Za-z0-9_]+)+")
    part = re.compile(r"(?:(?<=[-+])|^)(" + "|".join(sorted(map(re.escape, table), key=len, reverse=True)) + r")(?=[-+]|$)")
    own = re.compile(r"^(?:abbrev )?(?:pub )?(\S+) : goal\.(\S+)$", re.M)
    made = re.compile(r"\.Goals\.\{([^}]*)\}")
    n = 0
    for path in texts((".antt",)):
        if os.path.basename(path) not in ("Answers.antt", "Invariants.antt", "Choices.antt", "Proof.antt"):
            continue
        old = read(path)
        goals = set(g for g, _ in own.findall(old))
        for names in made.findall(old):
            goals.update(n.strip() for n in names.split(","))

        def turn(m):
            w = m.group(0)
            before = old[m.start() - 1 : m.start()]
            if before == "." or w in goals:
                return part.sub(lambda p: table[p.group(1)], w)
            return w

        new = dashed.sub(turn, old)
        if new != old:
            n += 1
            with open(path, "w", encoding="utf-8") as f:
                f.write(new)
    print(f"kept: {n} files")


main()
