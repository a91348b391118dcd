#!/usr/bin/env python3
"""Writes the data of this example: a symmetric matrix in a Matrix Market file, a vector, and what the tool makes of them, and a picture."""
import os
import subprocess
import sys

TOOLS = os.path.join(os.path.dirname(os.path.abspath(__file__)), "../../tools")
SIDE = 5
entries = []
for row in range(1, SIDE * SIDE + 1):
    # a grid: each point beside those on its left and above it, and here and there one that is far
    entries += [(row, row - SIDE, "-1.0")] * (row > SIDE) + [(row, row - 1, "-1.0")] * (row % SIDE != 1)
    entries += [(row, row - 13, "0.3333333333")] * (row in (16, 22))
    entries.append((row, row, "4.0"))


def run(tool, *words):
    subprocess.run([sys.executable, "-B", f"{TOOLS}/{tool}", *words], stdout=subprocess.DEVNULL, check=True)


with open("grid.mtx", "w", encoding="ascii") as out:
    out.write("%%MatrixMarket matrix coordinate real symmetric\n% a grid of 5 by 5 points, and two entries that are far\n")
    out.write(f"{SIDE * SIDE} {SIDE * SIDE} {len(entries)}\n" + "".join(f"{r} {c} {v}\n" for r, c, v in entries))
with open("vector.txt", "w", encoding="ascii") as out:
    out.write("".join(f"{row % 4}\n" for row in range(1, SIDE * SIDE + 1)))
run("from_matrix_market.py", "grid.mtx", "--scale", "1000", "--values", "vector.txt", "--name", "matrix_market")
run("picture.py", ".", "letters.svg")
