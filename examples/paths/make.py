#!/usr/bin/env python3
"""Writes the data of this example: a graph of 12 points and 30 edges, and lengths that stand for "not reached yet"."""
N, EDGES = 12, 30
edges, drawn = [], 5
for number in range(EDGES):
    drawn = (drawn * 1103515245 + 12345) % 2**31
    start = number % N + 1
    edges.append((start, (start + 1 + drawn // 65536 % 5) % N + 1, 1 + drawn // 2097152 % 9))


def write(name, numbers):
    with open(f"{name}.csv", "w", encoding="ascii") as out:
        out.write("".join(f"{it}\n" for it in numbers))


write("d", [0] + [1000000] * (N - 1))
write("a", [it[0] for it in edges])
write("b", [it[1] for it in edges])
write("w", [it[2] for it in edges])
