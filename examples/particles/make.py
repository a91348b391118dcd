#!/usr/bin/env python3
"""Writes the data of this example: 24 particles with a cell, a speed and a charge; none leaves the 16 cells in five steps."""
CELLS, PARTICLES, STEPS = 16, 24, 5
particles = []
for number in range(PARTICLES):
    speed = number % 5 - 2
    room = CELLS - STEPS * abs(speed)
    cell = 1 + number * 7 % room + (STEPS * -speed if speed < 0 else 0)
    particles.append((cell, speed, 1 + number % 3))


def write(name, numbers):
    with open(f"{name}.csv", "w", encoding="ascii") as out:
        out.write("".join(f"{it}\n" for it in numbers))


write("cell", [it[0] for it in particles])
write("v", [it[1] for it in particles])
write("q", [it[2] for it in particles])
