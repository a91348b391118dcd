#!/usr/bin/env python3
"""Draws pictures of the pages from what the examples have: docs/ring.svg, examples/partition/maps.svg, examples/molecules/pairs.svg.

  docs/pictures.py            says which are others than are drawn now
  docs/pictures.py --write    draws them anew
"""
import os
import sys

TOP = os.path.dirname(os.path.dirname(os.path.abspath(__file__)))
sys.path.insert(0, f"{TOP}/tools")
sys.dont_write_bytecode = True
from picture import arrow, colour, dot, line, numbers, picture, shortened, text  # noqa: E402

MIDDLE = ' text-anchor="middle"'
WHITE = f'{MIDDLE} fill="white"'


def ring():
    """The README's ring on two nodes: point A(I) and B(I) of edge I, by blocks; an edge runs where point A(I) stands."""
    first, second, node = [1, 2, 3, 4], [2, 3, 4, 1], [0, 0, 1, 1]
    place = {1: (110, 90), 2: (110, 230), 3: (490, 230), 4: (490, 90)}
    for at, left in (0, 30), (1, 410):
        yield f'<rect x="{left}" y="40" width="160" height="240" rx="12" fill="none" stroke="{colour(at)}"/>'
        yield text(left + 80, 30, f"node {at}", 14, MIDDLE)
    for edge, (a, b) in enumerate(zip(first, second), 1):
        is_far = node[a - 1] != node[b - 1]
        ends = shortened(place[a], place[b], 22)
        yield line(*ends, "#222" if is_far else "#bbb", ' stroke-dasharray="5 4"' if is_far else "")
        x, y = (place[a][0] + place[b][0]) / 2, (place[a][1] + place[b][1]) / 2
        yield text(x, y + (5 if not is_far else -4), f"edge {edge}", 12, f'{MIDDLE} stroke="white" stroke-width="4" paint-order="stroke"')
        if not is_far:
            continue
        # its node gathers X of the other end and scatters what it adds to F there
        for sender, taker, said, bend in (b, a, f"gather X({b})", 34), (a, b, f"scatter F({b})", 64):
            low = 1 if place[a][1] > 150 else -1
            turned = bend * low * (1 if place[taker][0] > place[sender][0] else -1)
            drawn, middle = arrow(*shortened(place[sender], place[taker], 24), turned)
            yield drawn
            yield text(middle[0], middle[1] - 3, said, 12, f'{MIDDLE} stroke="white" stroke-width="4" paint-order="stroke"')
    for point, at in place.items():
        yield dot(at, colour(node[point - 1]), 18)
        yield text(at[0], at[1] + 5, point, 14, WHITE)


def maps():
    """The grid of the example partition under its two maps."""
    folder, side = f"{TOP}/examples/partition", 4
    edges = list(zip(numbers(folder, "a"), numbers(folder, "b")))
    place = {(5 * at) % side**2 + 1: at for at in range(side**2)}
    for title, name, left in ("dealt out", "m", 40), ("a quarter each", "better", 420):
        node = numbers(folder, name)
        at = {point: (left + 90 * (it % side), 60 + 90 * (it // side)) for point, it in place.items()}
        far = sum(node[a - 1] != node[b - 1] for a, b in edges)
        yield text(left - 16, 26, f"{title}: {far} of {len(edges)} edges join two nodes")
        for a, b in edges:
            is_far = node[a - 1] != node[b - 1]
            yield line(at[a], at[b], "#222" if is_far else colour(node[a - 1]), "" if is_far else ' stroke-width="4"')
        for point, where in at.items():
            yield dot(where, colour(node[point - 1]), 16)
            yield text(where[0], where[1] + 5, point, 13, WHITE)


def pairs():
    """The three pair lists of the example molecules: atoms on a line, an arc for each pair; on four nodes in blocks."""
    folder, atoms, many = f"{TOP}/examples/molecules", 12, 16
    cells, first, second = numbers(folder, "lc"), numbers(folder, "la"), numbers(folder, "lb")
    for turn in range(3):
        level = 110 + 130 * turn
        listed, now = cells[turn * atoms : (turn + 1) * atoms], slice(turn * many, (turn + 1) * many)
        found = [(listed[a - 1], listed[b - 1]) for a, b in zip(first[now], second[now]) if a != b]
        far = sum((a - 1) // 3 != (b - 1) // 3 for a, b in found)
        yield text(20, level - 84, f"list {turn + 1}, for four steps: {len(found)} pairs, {far} of atoms of two nodes")
        for a, b in found:
            (x1, x2), is_far = sorted((40 + 60 * a, 40 + 60 * b)), (a - 1) // 3 != (b - 1) // 3
            top = level - min(120, 24 + 0.32 * (x2 - x1))
            shape = f"M{x1} {level} Q{(x1 + x2) / 2:.1f} {top:.1f} {x2} {level}"
            yield f'<path d="{shape}" fill="none" stroke="{"#222" if is_far else colour((a - 1) // 3)}"/>'
        for atom in range(1, atoms + 1):
            yield dot((40 + 60 * atom, level), colour((atom - 1) // 3), 12)
            yield text(40 + 60 * atom, level + 4, atom, 11, WHITE)


PICTURES = {
    "docs/ring.svg": (600, 330, ring),
    "examples/partition/maps.svg": (740, 380, maps),
    "examples/molecules/pairs.svg": (800, 400, pairs),
}


def main(words):
    wrong = 0
    for name, (width, height, drawn) in PICTURES.items():
        now = picture(width, height, drawn())
        if words == ["--write"]:
            with open(f"{TOP}/{name}", "w", encoding="ascii") as out:
                out.write(now)
            continue
        with open(f"{TOP}/{name}", encoding="ascii") as told:
            if told.read() != now:
                wrong += 1
                print(f"{name} isn't what docs/pictures.py draws")
    print(f"pictures: {f'{wrong} differ' if wrong else f'{len(PICTURES)} as drawn'}")
    return 1 if wrong else 0


if __name__ == "__main__":
    sys.exit(main(sys.argv[1:]))
