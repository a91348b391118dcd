#!/usr/bin/env python3
"""Writes the data of this example: a graph in METIS' format, parts of its points, and what the tool makes of them, with its picture."""
import os
import subprocess
import sys

TOOLS = os.path.join(os.path.dirname(os.path.abspath(__file__)), "../../tools")
GROUPS, SIZE = 4, 6
COUNT = GROUPS * SIZE
# a point of a group has every fourth number, so blocks of numbers are a bad partition
number = {(group, it): 1 + group + GROUPS * it for group in range(GROUPS) for it in range(SIZE)}
edges = {}
for group in range(GROUPS):
    for it in range(SIZE):
        edges[number[group, it], number[group, (it + 1) % SIZE]] = 1 + it % 3
        edges[number[group, it], number[group, (it + 2) % SIZE]] = 2
    edges[number[group, 0], number[(group + 1) % GROUPS, 3]] = 5
beside = {point: [] for point in range(1, COUNT + 1)}
for (a, b), weight in sorted(edges.items()):
    beside[a].append((b, weight))
    beside[b].append((a, weight))


def run(tool, *words):
    subprocess.run([sys.executable, "-B", f"{TOOLS}/{tool}", *words], stdout=subprocess.DEVNULL, check=True)


with open("groups.graph", "w", encoding="ascii") as out:
    out.write(f"% four groups of six points\n{COUNT} {len(edges)} 011\n")
    out.write("".join(" ".join(str(it) for it in [point % 5, *(of for pair in beside[point] for of in pair)]) + "\n" for point in beside))
with open("groups.graph.part.4", "w", encoding="ascii") as out:
    out.write("".join(f"{(point - 1) % GROUPS}\n" for point in beside))
run("from_metis.py", "groups.graph", "--map", "groups.graph.part.4", "--steps", "4", "--name", "metis")
run("picture.py", ".", "letters.svg")
