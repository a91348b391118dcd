#!/usr/bin/env python3
"""Draws parts.svg: the mesh with each point in the colour of its part, dealt out one by one and bisected."""
COLOURS = ["#1b6ca8", "#d1495b", "#3a7d44", "#e0a100"]


def numbers(name):
    with open(f"{name}.csv", encoding="ascii") as told:
        return [int(line) for line in told]


across, down, edges = numbers("across"), numbers("down"), list(zip(numbers("a"), numbers("b")))
scale = 320 / max(max(across), max(down))


def at(point, left):
    return left + scale * across[point - 1], 40 + scale * down[point - 1]


def drawn(title, parts, left):
    cut = sum(parts[a - 1] != parts[b - 1] for a, b in edges)
    yield f'<text x="{left}" y="24" font-size="14">{title}: {cut} of {len(edges)} edges join two nodes</text>'
    for a, b in edges:
        (x1, y1), (x2, y2) = at(a, left), at(b, left)
        yield f'<line x1="{x1:.1f}" y1="{y1:.1f}" x2="{x2:.1f}" y2="{y2:.1f}" stroke="#bbb"/>'
    for point, part in enumerate(parts, 1):
        x, y = at(point, left)
        yield f'<circle cx="{x:.1f}" cy="{y:.1f}" r="4" fill="{COLOURS[part]}"/>'


lines = [*drawn("dealt out", numbers("dealt"), 20), *drawn("bisected", numbers("m"), 400)]
with open("parts.svg", "w", encoding="ascii") as out:
    out.write('<svg xmlns="http://www.w3.org/2000/svg" width="780" height="390" font-family="sans-serif">\n')
    out.write("\n".join(lines) + "\n</svg>\n")
