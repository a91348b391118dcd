#!/usr/bin/env python3
"""Tests the tools: each malformed file gets its line, and what they make of others runs by chaosrun with the text of a loop in Python.

  tools/run.py              all
  tools/run.py --small      without the matrix of 1,000,000 entries and the mesh of 300,200 edges

The loops here go over the data before they are written into files, and read nothing that a tool has written. CHAOSRUN and CHAOSBISECT
name other programs than those that stand.
"""
import os
import re
import subprocess
import sys
import tempfile
import time
from fractions import Fraction

import picture

HERE = os.path.dirname(os.path.abspath(__file__))
TOP = os.path.dirname(HERE)
sys.path.insert(0, f"{TOP}/examples/bisection")
import loop  # noqa: E402

RUN = os.path.abspath(os.environ.get("CHAOSRUN", f"{TOP}/crates/chaosrun/out/chaosrun"))
BISECT = os.path.abspath(os.environ.get("CHAOSBISECT", f"{TOP}/crates/chaosbisect/out/chaosbisect"))
TOOLS = {"mtx": "from_matrix_market.py", "graph": "from_metis.py", "node": "from_mesh.py", "msh": "from_mesh.py"}


class Draws:
    """Numbers that look drawn by chance, the same each time."""

    def __init__(self, seed):
        self.state = seed

    def below(self, many):
        self.state = (self.state * 6364136223846793005 + 1442695040888963407) % 2**64
        return (self.state >> 33) % many


def wrapped(number):
    return (number + 2**63) % 2**64 - 2**63


def row(name, numbers):
    return f"{name} = {' '.join(map(str, numbers))}\n"


def tool(name, words, room):
    whole = [sys.executable, "-B", f"{HERE}/{name}", *words, "--to", "made"]
    return subprocess.run(whole, cwd=room, stdout=subprocess.PIPE, stderr=subprocess.PIPE, text=True)


def write(room, name, text):
    with open(f"{room}/{name}", "w", encoding="latin-1") as out:
        out.write(text)


# The table of malformed files


def table():
    with open(f"{HERE}/malformed.txt", encoding="ascii") as told:
        cases = re.split(r"^-- (.*)\n", told.read(), flags=re.M)
    for above, line in zip(cases[::2], cases[1::2]):
        words = (re.search(r"^\+\+ (.*)\n", above, re.M) or [None, ""])[1].split()
        parts = re.split(r"^== (\S+)\n", re.sub(r"^\+\+ .*\n", "", above, flags=re.M), flags=re.M)
        yield dict(zip(parts[1::2], parts[2::2])), words, line


def refused():
    """How many malformed files got another line, another status, or left something behind."""
    wrong = many = 0
    for files, words, line in table():
        with tempfile.TemporaryDirectory() as room:
            for name, text in files.items():
                write(room, name, text)
            first = next(iter(files))
            of_mesh = [it for it in files if it.endswith((".node", ".ele"))]
            ran = tool(TOOLS[first.rpartition(".")[2]], [*(of_mesh or [first]), *words], room)
            many += 1
            if (ran.returncode, ran.stdout, ran.stderr, sorted(os.listdir(room))) != (65, "", f"{line}\n", sorted(files)):
                wrong += 1
                print(f"status {ran.returncode}, {ran.stderr or ran.stdout}instead of\n{line}")
    print(f"malformed files: {f'{wrong} of {many} differ' if wrong else f'{many} with their lines'}")
    return wrong


# Files that are taken


def main_loop(room, source):
    """The line of the loop that does the work: the first FORALL that reduces."""
    with open(f"{room}/made/{source}", encoding="ascii") as told:
        return next(at for at, line in enumerate(told) if line.startswith("REDUCE"))


def report(at, executed, gathered, scattered):
    many = [executed * sum(it.values()) for it in (gathered, scattered)]
    return f"loop {at}: executed {executed}, inspected 1, gathered {many[0]}, scattered {many[1]}\n"


def compared(name, room, source, wanted, executed, every=(1, 4, 7)):
    """How many runs of what was made wrote something else, or reported other counts of their main loop than are counted here."""
    wrong, at = 0, main_loop(room, source)
    for nodes in every:
        begun = time.time()
        ran = subprocess.run([RUN, source, "--nodes", str(nodes), "--report"], cwd=f"{room}/made", stdout=subprocess.PIPE, text=True)
        took = time.time() - begun
        text = "".join(it for it in ran.stdout.splitlines(True) if not it.startswith("loop "))
        told = report(at, executed, *picture.traffic(f"{room}/made", nodes))
        if ran.returncode or text != wanted or told not in ran.stdout:
            wrong += 1
            print(f"{name} on {nodes} nodes: status {ran.returncode}, wrote\n{ran.stdout[:500]}\n{ran.stdout[len(text):]}")
            print(f"instead of\n{wanted[:500]}\n{told}")
    lasted = f", {took:.1f} s on {every[0]} nodes" if len(every) == 1 else ""
    print(f"{name}: {f'{wrong} runs differ' if wrong else 'as the loop'}{lasted}", flush=True)
    return wrong


def made(name, words, room, said):
    """Whether the tool ended well and said this."""
    ran = tool(name, words, room)
    if ran.returncode or said not in ran.stdout:
        print(f"{name} {' '.join(words)}: status {ran.returncode}, said\n{ran.stdout}{ran.stderr}instead of\n{said}")
        return False
    return True


def product(rows, columns, numbers, x, height, times):
    for _ in range(times):
        y = [0] * height
        for r, c, v in zip(rows, columns, numbers):
            y[r - 1] += v * x[c - 1]
        x = [wrapped(it) for it in y]
    return x


def matrix(name, height, width, many, kind, form, times=1, has_values=False, every=(1, 4, 7)):
    draws = Draws(many)
    rows, columns = [1 + draws.below(height) for _ in range(many)], [1 + draws.below(width) for _ in range(many)]
    if form == "symmetric":
        rows, columns = [max(it) for it in zip(rows, columns)], [min(it) for it in zip(rows, columns)]
    numbers, texts, said = [1] * many, [""] * many, ""
    if kind == "integer":
        numbers = [draws.below(2001) - 1000 for _ in range(many)]
        texts = [f" {it}" for it in numbers]
    elif kind == "real":
        # to six digits behind the point, times 1000
        exact = [Fraction(draws.below(2 * 10**9) - 10**9, 10**6) * 1000 for _ in range(many)]
        numbers = [round(it) for it in exact]
        texts = [f" {float(it / 1000):.6f}" if at % 2 else f" {float(it / 1000):.9e}" for at, it in enumerate(exact)]
        worst = max(abs(round(it) - it) for it in exact)
        broken = sum(it.denominator > 1 for it in exact)
        said = f"values times 1000: {broken} of {many} aren't whole then, off by at most {float(worst / 1000):.3g}\n"
    body = "".join(f"{r} {c}{v}\n" for r, c, v in zip(rows, columns, texts))
    beside = [it for it in range(many) if form == "symmetric" and rows[it] != columns[it]]
    rows, columns = rows + [columns[it] for it in beside], columns + [rows[it] for it in beside]
    numbers += [numbers[it] for it in beside]
    x = [draws.below(100) - 50 for _ in range(width)] if has_values else [1] * width
    with tempfile.TemporaryDirectory() as room:
        write(room, "a.mtx", f"%%MatrixMarket matrix coordinate {kind} {form}\n% made by a test\n{height} {width} {many}\n{body}")
        # one number that isn't whole has all of them taken times the factor
        scale = 1000 if kind == "real" and has_values else 1
        write(room, "values.txt", "".join(f"{it}{'.0' * (scale > 1 and not at)}\n" for at, it in enumerate(x)))
        words = ["a.mtx", *["--times", str(times)] * (times > 1), *["--values", "values.txt"] * has_values]
        words += ["--scale", "1000"] * (kind == "real")
        if not made("from_matrix_market.py", words, room, said):
            return 1
        wanted = product(rows, columns, numbers, [scale * it for it in x], height, times)
        return compared(name, room, "product.fd", row("X" if times > 1 else "Y", wanted), times, every)


def swept(x, edges, steps):
    for _ in range(steps):
        f = [0] * len(x)
        for a, b, w in edges:
            f[a - 1] += w * (x[b - 1] - x[a - 1])
            f[b - 1] += w * (x[a - 1] - x[b - 1])
        x = [wrapped(it + more) for it, more in zip(x, f)]
    return x


def graph(name, points, many, form, weights, steps, has_map):
    draws, found = Draws(points), {}
    while len(found) < many:
        a, b = 1 + draws.below(points - 1), 1 + draws.below(points - 1)
        if a != b:
            found[min(a, b), max(a, b)] = 1 + draws.below(9) if form[2] == "1" else 1
    # the last point has no neighbour: its line may be blank
    beside = {it: [] for it in range(1, points + 1)}
    for (a, b), w in found.items():
        beside[a].append((b, w))
        beside[b].append((a, w))
    x, body = [], ""
    for point in range(1, points + 1):
        own = [draws.below(50) for _ in range((form[0] == "1") + weights)]
        x.append(own[form[0] == "1"] if weights else point)
        told = [*own, *(it for b, w in beside[point] for it in ([b, w] if form[2] == "1" else [b]))]
        body += " ".join(map(str, told)) + "\n"
    head = f"{points} {many}" + ("" if form == "000" else f" {form.lstrip('0')}") + (f" {weights}" if weights > 1 else "")
    with tempfile.TemporaryDirectory() as room:
        write(room, "a.graph", f"% made by a test\n{head}\n{body}")
        write(room, "parts.txt", "".join(f"{it * 7 % 5}\n" for it in range(points)))
        words = ["a.graph", "--steps", str(steps), *["--map", "parts.txt"] * has_map]
        if not made("from_metis.py", words, room, f"sweep.fd: {points} points, {many} edges"):
            return 1
        return compared(name, room, "sweep.fd", row("X", swept(x, [(*it, w) for it, w in found.items()], steps)), steps)


def square(side):
    """Points of an uneven grid of squares, and its triangles."""
    places = [(r * 100 + c * c % 37, c * 90 + r * 7 % 13) for r in range(side + 1) for c in range(side + 1)]
    at = lambda r, c: r * (side + 1) + c + 1
    cells = [(at(r, c), at(r, c + 1), at(r + 1, c), at(r + 1, c + 1)) for r in range(side) for c in range(side)]
    return places, [it for a, b, c, d in cells for it in ((a, b, d), (a, d, c))]


def edges_of(elements, pairs):
    return sorted({(min(e[a], e[b]), max(e[a], e[b])) for e in elements for a, b in pairs})


def meshed(name, room, words, places, kinds, edges, steps, said="", every=(1, 4, 7)):
    """Runs the tool over a mesh that was written, and compares; kinds are names and corners of elements."""
    words = [*words, "--bisect", BISECT, "--steps", str(steps)]
    if not all(made("from_mesh.py", words, room, it) for it in (f"mesh.fd: {len(places)} points, {len(edges)} edges", said)):
        return 1
    x = swept(list(range(1, len(places) + 1)), [(a, b, 1) for a, b in edges], steps)
    wanted = row("X", x) + "".join(row(f"{kind}SUM", [wrapped(sum(x[it - 1] for it in corners)) for corners in of]) for kind, of in kinds)
    axes = [[10**6 * it[axis] for it in places] for axis in range(len(places[0]))]
    wrong = picture.numbers(f"{room}/made", "m") != loop.bisected(4, axes)
    if wrong:
        print(f"{name}: the map isn't that of sorting")
    return wrong + compared(name, room, "mesh.fd", wanted, steps, every)


RING = [(0, 1), (1, 2), (2, 0)]
FORMAT = "$MeshFormat\n2.2 0 8\n$EndMeshFormat\n"


def triangle(name, side, first, steps, every=(1, 4, 7)):
    places, triangles = square(side)
    with tempfile.TemporaryDirectory() as room:
        told = "".join(f"{at + first} {x} {y}.0 7 1\n" for at, (x, y) in enumerate(places))
        write(room, "a.node", f"# made by a test\n{len(places)} 2 1 1\n{told}")
        of = [" ".join(str(it - 1 + first) for it in corners) for corners in triangles]
        told = "".join(f"{at + first} {corners} # a triangle\n" for at, corners in enumerate(of))
        write(room, "a.ele", f"{len(triangles)} 3 0\n{told}")
        return meshed(name, room, ["a.node", "a.ele"], places, [("TRIANGLE", triangles)], edges_of(triangles, RING), steps, every=every)


def gmsh(name, side):
    """Triangles and squares side by side, with boundary lines, point numbers far apart, and a section that isn't read."""
    places, triangles = square(side)
    half = len(triangles) // 4 * 2
    squares = [(a, b, d, c) for (a, b, d), (_, _, c) in zip(triangles[half::2], triangles[half + 1 :: 2])]
    triangles = triangles[:half]
    edges = sorted({*edges_of(triangles, RING), *edges_of(squares, [(0, 1), (1, 2), (2, 3), (3, 0)])})
    with tempfile.TemporaryDirectory() as room:
        told = [f"1 1 2 0 1 10 {3 * 2 + 7}", *(f"9 2 2 0 1 {' '.join(str(3 * it + 7) for it in e)}" for e in triangles)]
        told += [f"9 3 1 0 {' '.join(str(3 * it + 7) for it in e)}" for e in squares]
        nodes = "".join(f"{3 * at + 7} {x} {y} 0\n" for at, (x, y) in enumerate(places, 1))
        names = '$PhysicalNames\n1\n2 1 "all"\n$EndPhysicalNames\n'
        text = f"{FORMAT}{names}$Nodes\n{len(places)}\n{nodes}$EndNodes\n"
        write(room, "a.msh", text + f"$Elements\n{len(told)}\n" + "\n".join(told) + "\n$EndElements\n$NodeData\nwhatever\n")
        kinds = [("TRIANGLE", triangles), ("QUAD", squares)]
        return meshed(name, room, ["a.msh"], [(*it, 0) for it in places], kinds, edges, 3, "1 elements of lower dimension")


def cubes(name, side):
    """Cubes, each with the edges along its axes, and a tetrahedron, a prism and a pyramid on top."""
    at = lambda x, y, z: (x * (side + 1) + y) * (side + 1) + z + 1
    places = [(100 * x, 70 * y + x, 50 * z) for x in range(side + 1) for y in range(side + 1) for z in range(side + 1)]
    steps = [(0, 0), (1, 0), (1, 1), (0, 1)]
    hexas = [[at(x + a, y + b, z + c) for c in (0, 1) for a, b in steps] for x in range(side) for y in range(side) for z in range(side)]
    more = {4: ("TETRA", [1, 2, 5, 7]), 6: ("PRISM", [1, 2, 3, 9, 8, 7]), 7: ("PYRAMID", [1, 2, 3, 4, 9])}
    near = lambda a, b: sum(abs(p - q) for p, q in zip(a, b)) == 1
    edges = set(edges_of([(at(*a), at(*b)) for a in cube(side + 1) for b in cube(side + 1) if near(a, b)], [(0, 1)]))
    edges |= {(1, 2), (1, 5), (2, 5), (1, 7), (2, 7), (5, 7)}
    edges |= {(1, 2), (2, 3), (1, 3), (8, 9), (7, 8), (7, 9), (1, 9), (2, 8), (3, 7)}
    edges |= {(1, 2), (2, 3), (3, 4), (1, 4), (1, 9), (2, 9), (3, 9), (4, 9)}
    with tempfile.TemporaryDirectory() as room:
        told = [f"{it} 5 0 {' '.join(map(str, e))}" for it, e in enumerate(hexas)]
        told += [f"0 {kind} 0 {' '.join(map(str, e))}" for kind, (_, e) in more.items()]
        nodes = "".join(f"{it} {x} {y} {z}\n" for it, (x, y, z) in enumerate(places, 1))
        text = f"{FORMAT}$Nodes\n{len(places)}\n{nodes}$EndNodes\n$Elements\n{len(told)}\n"
        write(room, "a.msh", text + "\n".join(told) + "\n$EndElements\n")
        kinds = [("TETRA", [more[4][1]]), ("HEXA", hexas), ("PRISM", [more[6][1]]), ("PYRAMID", [more[7][1]])]
        return meshed(name, room, ["a.msh"], places, kinds, sorted(edges), 2)


def cube(side):
    return [(x, y, z) for x in range(side) for y in range(side) for z in range(side)]


def main(words):
    wrong = refused()
    wrong += matrix("a pattern", 9, 14, 40, "pattern", "general")
    wrong += matrix("a symmetric pattern, five products", 20, 20, 60, "pattern", "symmetric", times=5)
    wrong += matrix("integers, with a vector", 30, 17, 200, "integer", "general", has_values=True)
    wrong += matrix("symmetric integers, eight products that wrap", 300, 300, 2000, "integer", "symmetric", times=8)
    wrong += matrix("real numbers", 40, 40, 300, "real", "symmetric", times=2, has_values=True)
    wrong += matrix("one entry", 1, 1, 1, "integer", "general")
    for form, weights in ("000", 0), ("001", 0), ("010", 1), ("011", 2), ("111", 3), ("100", 0):
        wrong += graph(f"a graph of format {form}", 40, 90, form, weights, 4, weights != 1)
    wrong += triangle("triangles counted from 0", 7, 0, 5)
    wrong += triangle("triangles counted from 1", 12, 1, 3)
    wrong += gmsh("triangles and squares of Gmsh", 6)
    wrong += cubes("cubes, a tetrahedron, a prism and a pyramid of Gmsh", 3)
    if "--small" not in words:
        wrong += matrix("a matrix of 1,000,000 entries", 200_000, 200_000, 1_000_000, "integer", "general", every=(4,))
        wrong += triangle("a mesh of 300,200 edges", 316, 1, 10, every=(4,))
    return 1 if wrong else 0


if __name__ == "__main__":
    sys.exit(main(sys.argv[1:]))
