#!/usr/bin/env python3
"""Draws what a tool has written: the parts, and beside them how many elements nodes send each other in an execution of its loop.

  tools/picture.py FOLDER FILE.svg [NODES]

FOLDER has the csv files of one tool. Who sends what to whom is counted from these files by a plain loop, by the rule `owner`: an iteration
runs where its first target stands, and its node needs each element of another node once.
"""
import math
import os
import sys

COLOURS = ["#1b6ca8", "#d1495b", "#3a7d44", "#e0a100", "#7b4ea3", "#2a9d8f", "#8d5524", "#6c757d"]


def colour(node):
    return COLOURS[node % len(COLOURS)]


def numbers(folder, name):
    with open(os.path.join(folder, f"{name}.csv"), encoding="ascii") as told:
        return [int(line) for line in told]


def have(folder, name):
    return os.path.isfile(os.path.join(folder, name))


def owners_of(folder, nodes):
    return [it % nodes for it in numbers(folder, "m")]


def letters(needs):
    """How many elements go from node to node, for pairs of a node and an element that it needs, told with the owner."""
    found = {}
    for node, _, owner in set(needs):
        if node != owner:
            found[owner, node] = found.get((owner, node), 0) + 1
    return found


def of_product(folder, nodes):
    """Gathered and scattered elements of a product, by sender and taker."""
    rows, columns, at = numbers(folder, "r"), numbers(folder, "c"), owners_of(folder, nodes)
    count = len(numbers(folder, "x"))
    # a vector as long as the rows stands with them, else in blocks
    vector = at if count == len(at) else [it // -(-count // nodes) for it in range(count)]
    return letters((at[r - 1], c, vector[c - 1]) for r, c in zip(rows, columns)), {}


def of_sweep(folder, nodes):
    first, second, at = numbers(folder, "a"), numbers(folder, "b"), owners_of(folder, nodes)
    gathered = letters((at[a - 1], b, at[b - 1]) for a, b in zip(first, second))
    return gathered, {(taker, sender): many for (sender, taker), many in gathered.items()}


def traffic(folder, nodes):
    return (of_product if have(folder, "r.csv") else of_sweep)(folder, nodes)


def text(x, y, said, size=13, more=""):
    return f'<text x="{x:.1f}" y="{y:.1f}" font-size="{size}"{more}>{said}</text>'


def line(a, b, stroke="#bbb", more=""):
    return f'<line x1="{a[0]:.1f}" y1="{a[1]:.1f}" x2="{b[0]:.1f}" y2="{b[1]:.1f}" stroke="{stroke}"{more}/>'


def dot(at, fill, radius=4.0):
    return f'<circle cx="{at[0]:.1f}" cy="{at[1]:.1f}" r="{radius:.1f}" fill="{fill}"/>'


def arrow(a, b, bend, stroke="#444"):
    """A curved arrow from a towards b, and its middle."""
    (x1, y1), (x2, y2) = a, b
    long = math.hypot(x2 - x1, y2 - y1)
    across = (y1 - y2) / long, (x2 - x1) / long
    middle = (x1 + x2) / 2 + bend * across[0], (y1 + y2) / 2 + bend * across[1]
    path = f"M{x1:.1f} {y1:.1f} Q{middle[0]:.1f} {middle[1]:.1f} {x2:.1f} {y2:.1f}"
    drawn = f'<path d="{path}" fill="none" stroke="{stroke}" marker-end="url(#head)"/>'
    return drawn, ((x1 + x2) / 4 + middle[0] / 2, (y1 + y2) / 4 + middle[1] / 2)


def shortened(a, b, by):
    """The points between a and b that far from each."""
    long = math.hypot(b[0] - a[0], b[1] - a[1])
    away = by * (b[0] - a[0]) / long, by * (b[1] - a[1]) / long
    return (a[0] + away[0], a[1] + away[1]), (b[0] - away[0], b[1] - away[1])


def picture(width, height, drawn):
    shape = '<path d="M0 0 L7 3 L0 6 z" fill="#444"/>'
    head = f'<marker id="head" markerWidth="8" markerHeight="8" refX="7" refY="3" orient="auto">{shape}</marker>'
    size = f'width="{width}" height="{height}"'
    opened = f'<svg xmlns="http://www.w3.org/2000/svg" {size} viewBox="0 0 {width} {height}" font-family="sans-serif">'
    return "\n".join([opened, f'<rect width="{width}" height="{height}" fill="white"/>', f"<defs>{head}</defs>", *drawn, "</svg>"]) + "\n"


def senders(folder, nodes, left):
    """The nodes on a circle, and on each arrow how many elements go along it."""
    gathered, scattered = traffic(folder, nodes)
    place = [(left + 160 + 120 * math.sin(2 * math.pi * it / nodes), 200 - 120 * math.cos(2 * math.pi * it / nodes)) for it in range(nodes)]
    yield text(left, 24, f"gathered by an execution: {sum(gathered.values())} elements of X")
    if scattered:
        yield text(left, 384, f"scattered: {sum(scattered.values())} elements of F, against the arrows")
    for (sender, taker), many in sorted(gathered.items()):
        drawn, middle = arrow(*shortened(place[sender], place[taker], 24), 26)
        yield drawn
        yield text(middle[0], middle[1] + 4, many, 12, ' text-anchor="middle" stroke="white" stroke-width="4" paint-order="stroke"')
    for node, at in enumerate(place):
        yield dot(at, colour(node), 20)
        yield text(at[0], at[1] + 5, node, 14, ' text-anchor="middle" fill="white"')


def fitted(places, left):
    """Places in a square of 320, with what is up above."""
    across, down = [it[0] for it in places], [it[1] for it in places]
    scale = 320 / max(max(across) - min(across), max(down) - min(down), 1)
    return [(left + scale * (x - min(across)), 40 + scale * (max(down) - y)) for x, y in places]


def drawn_edges(folder, nodes, left):
    """A graph or a mesh: points where their coordinates say, or on a circle by their parts."""
    at, edges = owners_of(folder, nodes), list(zip(numbers(folder, "a"), numbers(folder, "b")))
    if have(folder, "place1.csv"):
        places = list(zip(numbers(folder, "place1"), numbers(folder, "place2")))
    else:
        ring = sorted(range(len(at)), key=lambda it: (at[it], it))
        turn = {it: 2 * math.pi * rank / len(ring) for rank, it in enumerate(ring)}
        places = [(math.sin(turn[it]), math.cos(turn[it])) for it in range(len(at))]
        places = [(1000 * x, 1000 * y) for x, y in places]
    places = fitted(places, left)
    yield text(left, 24, f"{sum(at[a - 1] != at[b - 1] for a, b in edges)} of {len(edges)} edges join two nodes")
    for a, b in edges:
        is_cut = at[a - 1] != at[b - 1]
        yield line(places[a - 1], places[b - 1], "#222" if is_cut else colour(at[a - 1]), "" if is_cut else ' stroke-opacity="0.5"')
    for point, place in enumerate(places):
        yield dot(place, colour(at[point]), 4 if len(at) < 300 else 2)


def drawn_entries(folder, nodes, left):
    """A matrix: each entry in the colour of its row's node, filled where the vector's element stands there too."""
    rows, columns, at = numbers(folder, "r"), numbers(folder, "c"), owners_of(folder, nodes)
    count = len(numbers(folder, "x"))
    vector = at if count == len(at) else [it // -(-count // nodes) for it in range(count)]
    step = 320 / max(len(at), count)
    far = sum(at[r - 1] != vector[c - 1] for r, c in zip(rows, columns))
    yield text(left, 24, f"{far} of {len(rows)} entries meet an element of another node")
    yield f'<rect x="{left}" y="40" width="{step * count:.1f}" height="{step * len(at):.1f}" fill="none" stroke="#bbb"/>'
    for r, c in zip(rows, columns):
        place, fill = (left + step * (c - 0.5), 40 + step * (r - 0.5)), colour(at[r - 1])
        is_far = at[r - 1] != vector[c - 1]
        yield dot(place, "white" if is_far else fill, 0.4 * step).replace("/>", f' stroke="{fill}" stroke-width="1.5"/>')


def main(folder, file, nodes="4"):
    nodes = int(nodes)
    parts = drawn_entries if have(folder, "r.csv") else drawn_edges
    with open(file, "w", encoding="ascii") as out:
        out.write(picture(760, 400, [*parts(folder, nodes, 20), *senders(folder, nodes, 410)]))


if __name__ == "__main__":
    main(*sys.argv[1:])
