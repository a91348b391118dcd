#!/usr/bin/env python3
"""Writes the data of this example: a lower triangular matrix, row by row, and a vector."""
N = 16
at = [(row, column) for row in range(1, N + 1) for column in range(1, row + 1)]


def write(name, numbers):
    with open(f"{name}.csv", "w", encoding="ascii") as out:
        out.write("".join(f"{it}\n" for it in numbers))


write("x", range(1, N + 1))
write("l", [row - column + 1 for row, column in at])
write("r", [row for row, _ in at])
write("c", [column for _, column in at])
