#!/usr/bin/env python3
"""Writes the data of this example: a sparse matrix in rows (row pointers, columns, values), and a vector."""
N, NODES = 12, 4
pointers, columns, values = [0], [], []
for row in range(1, N + 1):
    # its diagonal, its neighbours on a ring, and here and there a far column
    found = {row: 2, row % N + 1: -1, (row - 2) % N + 1: -1}
    if row % 2 == 0:
        found[(row * row + 3) % N + 1] = 1
    columns += sorted(found)
    values += [found[it] for it in sorted(found)]
    pointers.append(len(columns))
rows = [row for row in range(1, N + 1) for _ in range(pointers[row - 1], pointers[row])]
width = -(-N // NODES)


def write(name, numbers):
    with open(f"{name}.csv", "w", encoding="ascii") as out:
        out.write("".join(f"{it}\n" for it in numbers))


write("x", [row % 3 for row in range(1, N + 1)])
write("v", values)
write("r", rows)
write("c", columns)
write("home", [(row - 1) // width for row in rows])
