#!/usr/bin/env python3
"""What a bisection gives, by sorting: loop.py PARTS COUNT FILE [FILE [FILE]]."""
import sys


def cut(axes, elements, first, parts, told):
    if parts == 1:
        for it in elements:
            told[it] = first
        return
    widest = max(axes, key=lambda axis: max(axis[it] for it in elements) - min(axis[it] for it in elements))
    half = parts // 2
    most = half * (len(elements) // parts) + min(half, len(elements) % parts)
    ordered = sorted(elements, key=lambda it: (widest[it], it))
    cut(axes, ordered[:most], first, half, told)
    cut(axes, ordered[most:], first + half, parts - half, told)


def bisected(parts, axes):
    told = {}
    cut(axes, list(range(len(axes[0]))), 0, parts, told)
    return [told[it] for it in range(len(axes[0]))]


if __name__ == "__main__":
    axes = [[int(line) for line in open(name, encoding="ascii")] for name in sys.argv[3:]]
    assert all(len(axis) == int(sys.argv[2]) for axis in axes)
    print(*bisected(int(sys.argv[1]), axes), sep="\n")
