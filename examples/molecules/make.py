#!/usr/bin/env python3
"""Writes the data of this example: where the atoms are, and for each of three times their cell list and the pairs that are near then.

The atoms are moved here as the program moves them, so that each list is that of the places at its time. The cell list has the atoms
in the order of their cells, pieces of the line as long as a pull reaches. A pair names its atoms by their places in the cell list.
There are 16 pairs: the nearest come first, and a pair of an atom with itself, which pulls nothing, fills them up.
"""
N, PAIRS, NEAR = 12, 16, 25
places = [10 * i + (7 * i * i) % 11 for i in range(N)]
moves, cells, first, second = [0] * N, [], [], []


def write(name, numbers):
    with open(f"{name}.csv", "w", encoding="ascii") as out:
        out.write("".join(f"{it}\n" for it in numbers))


write("x", places)
for _ in range(3):
    listed = sorted(range(N), key=lambda i: (places[i] // NEAR, i))
    near = sorted((abs(places[i] - places[j]), i, j) for i in range(N) for j in range(i) if abs(places[i] - places[j]) <= NEAR)
    pairs = ([(i, j) for _, i, j in near] + [(0, 0)] * PAIRS)[:PAIRS]
    cells += [i + 1 for i in listed]
    first += [listed.index(i) + 1 for i, _ in pairs]
    second += [listed.index(j) + 1 for _, j in pairs]
    for _ in range(4):
        pulls = [0] * N
        for i, j in pairs:
            pulls[i] += places[j] - places[i]
            pulls[j] += places[i] - places[j]
        moves = [v + f for v, f in zip(moves, pulls)]
        places = [x + v for x, v in zip(places, moves)]
write("lc", cells)
write("la", first)
write("lb", second)
