#!/usr/bin/env python3
"""Writes the data of this example: a grid of 4 by 4 points that are numbered across it, and two maps of points to nodes."""
SIDE = 4
# the number of the point in row r and column c: neighbours are far apart in the numbering
number = {(r, c): (5 * (SIDE * r + c)) % (SIDE * SIDE) + 1 for r in range(SIDE) for c in range(SIDE)}
edges = [(number[r, c], number[r, c + 1]) for r in range(SIDE) for c in range(SIDE - 1)]
edges += [(number[r, c], number[r + 1, c]) for r in range(SIDE - 1) for c in range(SIDE)]
place = {point: at for at, point in number.items()}
points = range(1, SIDE * SIDE + 1)


def write(name, numbers):
    with open(f"{name}.csv", "w", encoding="ascii") as out:
        out.write("".join(f"{it}\n" for it in numbers))


write("x", [point * point % 7 for point in points])
# first the points dealt out one by one, then a quarter of the grid to each node
write("m", [point % SIDE for point in points])
write("better", [place[point][0] // 2 * 2 + place[point][1] // 2 for point in points])
write("a", [it[0] for it in edges])
write("b", [it[1] for it in edges])
