#!/usr/bin/env python3
"""Writes the data of this example: 30 particles, all in three cells at first, with velocities from -4 to 5."""
COUNT = 30


def write(name, numbers):
    with open(f"{name}.csv", "w", encoding="ascii") as out:
        out.write("".join(f"{it}\n" for it in numbers))


write("cells", [1 + it % 3 for it in range(COUNT)])
write("velocities", [it * it * 7 % 10 - 4 for it in range(COUNT)])
