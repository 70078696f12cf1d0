#!/usr/bin/env python3
"""Runs the proved planner and the plain one on the same large sheets, and prints the ratio of their work.

The plans have to be the same bytes. Work is counted in instructions by callgrind, which gives the same number at each run.
'Planning' is a whole run less one of the same sheet with the allowance 0, which reads the sheet and walks once.
Use: bench/compare.py [--sizes], after `rt run` in crates/pitplan. With --sizes it shows how the work grows with the elements."""
import os
import random
import re
import subprocess
import sys
import tempfile

HERE = os.path.dirname(os.path.abspath(__file__))
PROVED = os.path.join(HERE, "..", "crates", "pitplan", "out", "pitplan")


def element(rng, shape, tail):
    """An element's line and the price that it would have."""
    if shape == "wide":
        low, high = rng.randrange(0, 50), rng.randrange(1000, 2000)
    elif shape == "touching":
        low = rng.randrange(0, 30) * 4
        high = low + 4 * rng.randrange(1, 4)
    else:
        low = rng.randrange(0, 1000)
        high = low + rng.randrange(2, 400)
    price = rng.randrange(low + 1, high)
    if shape == "mixed" and rng.random() < 0.3:
        return f"k {price} {tail}", None
    return f"r {low} {high} {tail}", price


def sheet(kind, shape, n, allowance, seed):
    rng = random.Random(seed)
    if kind == "routes":
        count = min(255, max(2, n // 3))
        first = [f"p{i}" for i in range(count)]
        tails = [f"{rng.randrange(count)} {rng.randrange(count)}" for _ in range(n)]
    elif kind == "lots":
        count = 12
        first = [f"l{i} {rng.randrange(0, 15)}" for i in range(count)]
        tails = [str(rng.randrange(count)) for _ in range(n)]
    else:
        count = 64
        first = [f"b{i}" for i in range(count)]
        tails = ["".join(rng.choice("01") for _ in range(count)) for _ in range(n)]
    lines, record = [], []
    for i, tail in enumerate(tails):
        line, price = element(rng, shape, tail)
        lines.append(line)
        if price is not None:
            record.append(f"{i} {price}")
    parts = [f"{kind} {allowance}", str(count), *first, str(n), *lines, str(len(record)), *record]
    return "\n".join(parts) + "\n"


def counted(program, text, folder):
    """The bytes that the program prints, and how many instructions it takes."""
    out = os.path.join(folder, "callgrind.out")
    done = subprocess.run(["valgrind", "--tool=callgrind", f"--callgrind-out-file={out}", program],
                          input=text.encode(), stdout=subprocess.PIPE, stderr=subprocess.PIPE, check=True)
    return done.stdout, int(re.search(rb"Collected : (\d+)", done.stderr).group(1))


def compare(plain, kind, shape, n, folder):
    whole, least = sheet(kind, shape, n, 255, n), sheet(kind, shape, n, 0, n)
    a, b = counted(PROVED, whole, folder), counted(plain, whole, folder)
    if a[0] != b[0]:
        sys.exit(f"{kind} {shape}: the plans differ")
    paid = int(a[0].split(b"\n")[1])
    c, d = counted(PROVED, least, folder), counted(plain, least, folder)
    planning = (a[1] - c[1]) / max(1, b[1] - d[1])
    print(f"{kind:7} {shape:9} {n:4} elements {paid:4} prices  proved {a[1]:>12,}  plain {b[1]:>12,}  "
          f"ratio {a[1] / b[1]:5.2f}  planning alone {planning:5.2f}")


def main():
    with tempfile.TemporaryDirectory() as folder:
        plain = os.path.join(folder, "plain")
        subprocess.run(["rustc", "-O", "-o", plain, os.path.join(HERE, "plain", "planner.rs")], check=True)
        sizes = [64, 128, 255] if "--sizes" in sys.argv else [255]
        for kind in ["routes", "lots", "words"]:
            for shape in ["wide", "touching", "mixed"]:
                for n in sizes:
                    compare(plain, kind, shape, n, folder)


if __name__ == "__main__":
    main()
