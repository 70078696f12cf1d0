#!/usr/bin/env python3
"""Brings the repository's own definitions and lemmas to Rattle's spelling.

usage: python3 tools/respell.py        at the top of the repository, once, after port.py of the kit

A word (a definition, lemma, field or constructor that begins with a small letter) is written in snake case, a type in
upper camel case: lowest-mark is lowest_mark, bodyOf is body_of, Pays-once is PaysOnce. Names that Rattle makes from the
code, as returns-in-Ok and loop-i-preserved, stay as they are. Names of src/ stay too. It stops, and changes nothing,
where two names would fall together.
"""

import os
import re
import sys

SIGNATURE = re.compile(
    r"^(\s*)((?:abbrev |unfoldable |pub |data |record |ruleset )*)([^\s:(){}\[\],;.=|]+)(?:\s*[({][^=]*?[)}])*\s*:\s+(\S.*)$"
)
HEAD = re.compile(r"^\s*(?:pub )?(?:data|record|ruleset) (?:pub )?([^\s:(){}]+)")
TOKEN = re.compile(r"[^\s(){}\[\].,;:@\"«»|λ]+")
# a name whose plain turning is taken by another
APART = {
    "bit-xor": "bit_of_xor",
    "letter-text": "letter_text_lem",
    "lot-text": "lot_name_text",
    "route-text": "route_name_text",
    "word-text": "word_name_text",
    "lotsOf": "lots_in",
    "routesOf": "routes_in",
    "route-of": "route_from",
    "sheet-put": "sheet_put_lem",
}
MADE = re.compile(r"^(goal|given|the_\w*)\.")


def texts(endings):
    for folder, dirs, files in os.walk("crates"):
        dirs[:] = sorted(d for d in dirs if d not in ("out", "target"))
        for f in sorted(files):
            if f.endswith(endings):
                yield os.path.join(folder, f)


def read(path):
    with open(path, encoding="utf-8") as f:
        return f.read()


def turned(name):
    """The name as Rattle spells it."""
    if name in APART:
        return APART[name]
    if name[0].isupper():
        return "".join(p[:1].upper() + p[1:] for p in name.split("-"))
    return re.sub(r"(?<=[a-z0-9])([A-Z])", lambda m: "_" + m.group(1).lower(), name).replace("-", "_")


def declared():
    """The names that specs/ and proofs/ declare, and those among them that are fields or constructors."""
    names, fields, made = set(), set(), set()
    for path in texts(".antt"):
        inside = False
        for line in read(path).split("\n"):
            h = HEAD.match(line)
            if h:
                names.add(h.group(1))
                inside = True
                continue
            if line and not line[0].isspace():
                inside = False
            m = SIGNATURE.match(line)
            if not m or m.group(3) in ("let", "in", "elim", "--", "use", "module"):
                continue
            if line.lstrip().startswith(("--", "let ", "in ", "| ")):
                continue
            if MADE.match(m.group(4)):
                made.add(m.group(3))
                continue
            names.add(m.group(3))
            if inside and m.group(1):
                fields.add(m.group(3))
    return names - made, fields


def main():
    names, fields = declared()
    table = {n: turned(n) for n in names if turned(n) != n}
    taken = set()
    for path in texts((".antt",)):
        for line in read(path).split("\n"):
            line = line.split("--")[0]
            taken.update(m.group(0) for m in TOKEN.finditer(line) if line[m.start() - 1 : m.start()] != ".")
    bad = [(n, t) for n, t in sorted(table.items()) if t in taken]
    seen = {}
    for n, t in sorted(table.items()):
        if t in seen:
            bad.append((n, seen[t]))
        seen[t] = n
    for n, t in bad:
        print(f"falls together: {n} and {t}")
    if bad:
        raise SystemExit(2)

    def word(text, m):
        w = m.group(0)
        if w not in table:
            return w
        if text[m.start() - 1 : m.start()] == "." and w not in fields:
            return w
        return table[w]

    n = 0
    for path in texts((".antt", ".rt")):
        old = read(path)
        new = TOKEN.sub(lambda m: word(old, m), old)
        if new != old:
            n += 1
            with open(path, "w", encoding="utf-8") as f:
                f.write(new)
    print(f"respelled: {len(table)} names, {n} files")
    for k in sorted(table):
        print(f"    {k} {table[k]}")


main()
