#!/usr/bin/env python3
"""Holds two pictures of the crates against crates.txt: the column "Stands on" of docs/DESIGN.md, and the arrows of README.md.

  docs/crates.py             says where they differ
  docs/crates.py --write     writes the column anew

Of the crates that a crate's line names the column has those that none of the others stands on, in the order of crates.txt; so have the
arrows of the layers, by the crates in them.
"""
import os
import re
import sys

TOP = os.path.dirname(os.path.dirname(os.path.abspath(__file__)))
ROW = re.compile(r"^\| ([a-z_0-9, ]+) \| ([a-z_0-9, ]*?) ?\|(.*)$")
# the README's names of layers, by those of crates.txt; tests aren't drawn
LAYERS = ["programs", "front", "node", "world", "plan", "further", "schedules", "layouts", "meaning", "outside", "words"]


def told():
    """The crates below each crate, in the order of crates.txt, and the layer of each."""
    below, layer, found = {}, {}, ""
    with open(f"{TOP}/crates.txt", encoding="utf-8") as lines:
        for line in lines:
            name, colon, after = line.strip().partition(":")
            if line.startswith("#"):
                found = line[2:].split()[0].rstrip(":")
            elif colon:
                below[name], layer[name] = after.split(), found
    return {name: [it for it in below if it in of] for name, of in below.items()}, layer


def all_below(name, below):
    found, left = set(), list(below[name])
    while left:
        it = left.pop()
        if it not in found:
            found.add(it)
            left += below[it]
    return found


def reduced(direct, below):
    """Those that none of the others stands on."""
    return [it for it in direct if not any(it in all_below(other, below) for other in direct if other != it)]


def column(names, below):
    every = [it for it in below if any(it in below[name] for name in names) and it not in names]
    return ", ".join(reduced(every, below))


def rows(page, below):
    """The page with its column as crates.txt has it, and the crates in its rows."""
    lines, seen = page.split("\n"), []
    for at, line in enumerate(lines):
        found = ROW.match(line)
        names = found[1].split(", ") if found else []
        if names and all(it in below for it in names):
            seen += names
            stands = column(names, below)
            lines[at] = f"| {found[1]} | {stands}{' ' if stands else ''}|{found[3]}"
    return "\n".join(lines), seen


def arrows(below, layer):
    """The arrows between layers."""
    on = {it: [] for it in LAYERS}
    for name, of in below.items():
        for it in of:
            if layer[name] in on and layer[it] != layer[name] and layer[it] not in on[layer[name]]:
                on[layer[name]].append(layer[it])
    return {(it, other) for it in on for other in reduced(on[it], on)}


def main(words):
    below, layer = told()
    with open(f"{TOP}/docs/DESIGN.md", encoding="utf-8") as told_there:
        page = told_there.read()
    wanted, seen = rows(page, below)
    if words == ["--write"]:
        with open(f"{TOP}/docs/DESIGN.md", "w", encoding="utf-8") as out:
            out.write(wanted)
        page = wanted
    wrong = [f"docs/DESIGN.md: {is_so}\n  instead of {it}" for is_so, it in zip(page.split("\n"), wanted.split("\n")) if is_so != it]
    wrong += [f"docs/DESIGN.md: {it} is told {seen.count(it)} times" for it in below if seen.count(it) != 1]
    drawn = set()
    with open(f"{TOP}/README.md", encoding="utf-8") as read:
        for line in re.findall(r"^    .* --> .*$", read.read(), re.M):
            chain = [it.split("[")[0].strip() for it in line.split(" --> ")]
            drawn |= set(zip(chain, chain[1:]))
    for a, b in sorted(drawn ^ arrows(below, layer)):
        wrong.append(f"README.md: the arrow {a} --> {b} {'is missing' if (a, b) not in drawn else 'is too many'}")
    print("\n".join(wrong) or f"crates.txt: {len(seen)} rows of docs/DESIGN.md and {len(drawn)} arrows of README.md as it has them")
    return 1 if wrong else 0


if __name__ == "__main__":
    sys.exit(main(sys.argv[1:]))
