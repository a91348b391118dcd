#!/usr/bin/env python3
"""What the particles come to by a plain loop: loop.py CELLS STEPS COUNT CELLFILE VELOCITYFILE."""
import sys

cells, steps, count = map(int, sys.argv[1:4])
at, velocities = ([int(line) for line in open(name, encoding="ascii")] for name in sys.argv[4:])
assert len(at) == len(velocities) == count
for _ in range(steps):
    at = [(cell - 1 + velocity) % cells + 1 for cell, velocity in zip(at, velocities)]
for cell in range(1, cells + 1):
    print(f"bin {cell}:", *sorted(velocity for here, velocity in zip(at, velocities) if here == cell))
