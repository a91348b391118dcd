#!/usr/bin/env python3
"""Writes the data of this example: a plate with a hole as Triangle writes meshes, and what the tool makes of it, with its picture."""
import math
import os
import subprocess
import sys

TOOLS = os.path.join(os.path.dirname(os.path.abspath(__file__)), "../../tools")
AROUND, OUT = 18, 5
# rings of points around the hole, the inner ones closer together
places = []
for ring in range(OUT):
    for it in range(AROUND):
        turn, far = 2 * math.pi * (it + ring / 2) / AROUND, 1 + ring * (ring + 3) / 8
        places.append((far * math.cos(turn), far * math.sin(turn)))


def at(ring, it):
    return ring * AROUND + it % AROUND + 1


triangles = []
for ring in range(OUT - 1):
    for it in range(AROUND):
        triangles.append((at(ring, it), at(ring + 1, it), at(ring, it + 1)))
        triangles.append((at(ring, it + 1), at(ring + 1, it), at(ring + 1, it + 1)))


def run(tool, *words):
    subprocess.run([sys.executable, "-B", f"{TOOLS}/{tool}", *words], stdout=subprocess.DEVNULL, check=True)


with open("plate.node", "w", encoding="ascii") as out:
    out.write(f"# a plate with a hole\n{len(places)} 2 0 0\n" + "".join(f"{n} {x:.6f} {y:.6f}\n" for n, (x, y) in enumerate(places, 1)))
with open("plate.ele", "w", encoding="ascii") as out:
    out.write(f"{len(triangles)} 3 0\n" + "".join(f"{n} {' '.join(map(str, it))}\n" for n, it in enumerate(triangles, 1)))
run("from_mesh.py", "plate.node", "plate.ele", "--scale", "100000", "--steps", "3")
run("picture.py", ".", "letters.svg")
