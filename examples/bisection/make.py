#!/usr/bin/env python3
"""Writes the data of this example: 144 points of an uneven plane mesh, numbered in no order of place, their edges, and both maps."""
import loop

SIDE = 12
COUNT = SIDE * SIDE
# the point in row r and column c of the mesh has this number
number = {(r, c): (41 * (SIDE * r + c)) % COUNT + 1 for r in range(SIDE) for c in range(SIDE)}
place = {point: at for at, point in number.items()}
points = range(1, COUNT + 1)
edges = [(number[r, c], number[r, c + 1]) for r in range(SIDE) for c in range(SIDE - 1)]
edges += [(number[r, c], number[r + 1, c]) for r in range(SIDE - 1) for c in range(SIDE)]
# columns stand closer together on the left, and each point is a little off
across = [100 * place[p][1] + 9 * place[p][1] ** 2 + p * 7 % 31 for p in points]
down = [120 * place[p][0] + p * 13 % 37 for p in points]


def write(name, numbers):
    with open(f"{name}.csv", "w", encoding="ascii") as out:
        out.write("".join(f"{it}\n" for it in numbers))


write("across", across)
write("down", down)
write("x", [p * p % 19 for p in points])
write("a", [it[0] for it in edges])
write("b", [it[1] for it in edges])
# the points dealt out one by one, and the map that the bisection gives
write("dealt", [p % 4 for p in points])
write("m", loop.bisected(4, [across, down]))
