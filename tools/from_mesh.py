#!/usr/bin/env python3
"""From a mesh to csv files and a program, mesh.fd, of sweeps over its edges and of sums over the corners of its elements.

Taken: FILE.node with FILE.ele, as Triangle writes them, or FILE.msh, as Gmsh writes it in version 2.2 as text. The points are parted by
chaosbisect, where it stands. docs/FILES.md tells what is written.
"""
import sys

import common

# kinds of elements of Gmsh: name, dimension, corners, edges between corners
RING = {3: [(0, 1), (1, 2), (2, 0)], 4: [(0, 1), (1, 2), (2, 3), (3, 0)]}


def prism(sides):
    return RING[sides] + [(a + sides, b + sides) for a, b in RING[sides]] + [(it, it + sides) for it in range(sides)]


def pyramid(sides):
    return RING[sides] + [(it, sides) for it in range(sides)]


KINDS = {
    15: ("POINT", 0, 1, []),
    1: ("LINE", 1, 2, [(0, 1)]),
    2: ("TRIANGLE", 2, 3, RING[3]),
    3: ("QUAD", 2, 4, RING[4]),
    4: ("TETRA", 3, 4, pyramid(3)),
    5: ("HEXA", 3, 8, prism(4)),
    6: ("PRISM", 3, 6, prism(3)),
    7: ("PYRAMID", 3, 5, pyramid(4)),
}


class Mesh:
    """Coordinates by axis, points counted from 1; the corners of elements by their kind."""

    def __init__(self, axes):
        self.axes, self.elements, self.said = [[] for _ in range(axes)], {}, []

    def count(self):
        return len(self.axes[0])

    def add_point(self, source, fields, scale):
        for axis, text in zip(self.axes, fields):
            axis.append(scale.number(source, text, "a coordinate"))

    def add_element(self, source, kind, corners):
        if len(set(corners)) < len(corners):
            raise source.fault("a point is a corner of one element twice")
        self.elements.setdefault(kind, []).append(corners)


def triangle_points(source, scale):
    points, axes, more, marks = source.fields("the line of counts", 4)
    points = source.size(points, "the number of points")
    if axes != "2":
        raise source.fault(f"{common.shown(axes)} coordinates a point, not 2")
    more, marks = source.whole(more, "the number of attributes", 0, 1000), source.whole(marks, "the number of markers", 0, 1)
    mesh, first = Mesh(2), 1
    for at in range(points):
        found = source.fields(f"point {at + 1} of {points}", 3 + more + marks)
        number = source.whole(found[0], "the number of a point")
        if at == 0 and number in (0, 1):
            first = number
        if number != first + at:
            raise source.fault(f"point {number} stands where point {first + at} should")
        mesh.add_point(source, found[1:3], scale)
    source.ends(f"the {points} points")
    return mesh, first


def triangle_elements(source, mesh, first):
    many, corners, more = source.fields("the line of counts", 3)
    many = source.size(many, "the number of triangles")
    if corners not in ("3", "6"):
        raise source.fault(f"{common.shown(corners)} points a triangle, not 3 or 6")
    corners, more = int(corners), source.whole(more, "the number of attributes", 0, 1000)
    last = first + mesh.count() - 1
    for at in range(many):
        found = source.fields(f"triangle {at + 1} of {many}", 1 + corners + more)
        number = source.whole(found[0], "the number of a triangle")
        if number != first + at:
            raise source.fault(f"triangle {number} stands where triangle {first + at} should")
        told = [source.whole(it, "a corner", first, last) - first + 1 for it in found[1 : 1 + corners]]
        mesh.add_element(source, 2, told[:3])
    source.ends(f"the {many} triangles")
    if corners == 6:
        mesh.said.append("of six points of a triangle the three corners are taken")
    return mesh


def gmsh(source, scale):
    """A mesh of Gmsh: $MeshFormat, then $Nodes, then $Elements, with any other sections between."""
    section(source, "MeshFormat", is_first=True)
    version, kind, _ = source.fields("the format", 3)
    if version not in ("2.2", "2.1", "2"):
        raise source.fault(f"version {common.shown(version)} isn't taken: 2.2 is, by gmsh -format msh22")
    if kind != "0":
        raise source.fault("a file of bytes isn't taken: text is")
    ended(source, "MeshFormat")
    section(source, "Nodes")
    mesh, numbers = Mesh(3), {}
    points = source.size(source.fields("the number of points", 1)[0], "the number of points")
    for at in range(points):
        found = source.fields(f"point {at + 1} of {points}", 4)
        number = source.whole(found[0], "the number of a point", 1)
        if number in numbers:
            raise source.fault(f"point {number} stands twice")
        numbers[number] = at + 1
        mesh.add_point(source, found[1:], scale)
    ended(source, "Nodes")
    section(source, "Elements")
    gmsh_elements(source, mesh, numbers)
    ended(source, "Elements")
    return mesh


def gmsh_elements(source, mesh, numbers):
    many = source.whole(source.fields("the number of elements", 1)[0], "the number of elements", 1)
    for at in range(many):
        found = source.fields(f"element {at + 1} of {many}")
        if len(found) < 3:
            raise source.fault(f"{len(found)} fields where an element has at least 3")
        kind, tags = source.whole(found[1], "the kind of an element"), source.whole(found[2], "the number of tags", 0, 1000)
        if kind not in KINDS:
            raise source.fault(f"an element of kind {kind} isn't taken: {', '.join(map(str, sorted(KINDS)))} are")
        if len(found) != 3 + tags + KINDS[kind][2]:
            raise source.fault(f"{len(found)} fields where a {KINDS[kind][0].lower()} with {tags} tags has {3 + tags + KINDS[kind][2]}")
        corners = [source.whole(it, "a corner") for it in found[3 + tags :]]
        for it in corners:
            if it not in numbers:
                raise source.fault(f"corner {it} is no point")
        mesh.add_element(source, kind, [numbers[it] for it in corners])


def section(source, name, is_first=False):
    """Goes to the line with which a section begins, over other sections."""
    while True:
        (found,) = source.fields(f"${name}", 1)
        if found == f"${name}":
            return
        if is_first or not found.startswith("$") or found.startswith("$End"):
            raise source.fault(f"{common.shown(found)} stands where ${name} should")
        if found in ("$Nodes", "$Elements", "$MeshFormat"):
            raise source.fault(f"{found} stands before ${name}")
        begun = source.at
        while source.any_line(f"$End{found[1:]} of line {begun}").strip() != f"$End{found[1:]}":
            pass


def ended(source, name):
    (found,) = source.fields(f"$End{name}", 1)
    if found != f"$End{name}":
        raise source.fault(f"{common.shown(found)} stands where $End{name} should")


def highest(mesh, source):
    """Elements of the highest dimension, by their kind; those of lower dimensions are boundaries of them."""
    top = max(KINDS[it][1] for it in mesh.elements)
    if top == 0:
        raise source.fault("no element has an edge")
    left = sum(len(of) for it, of in mesh.elements.items() if KINDS[it][1] < top)
    if left:
        mesh.said.append(f"{left} elements of lower dimension (points, boundaries) are left out")
    found = {it: mesh.elements[it] for it in sorted(mesh.elements) if KINDS[it][1] == top}
    for it, of in found.items():
        most = min(common.ELEMENTS, common.WORK // (1 + 2 * KINDS[it][2]))
        if len(of) > most:
            raise source.fault(f"{len(of)} elements of kind {it}, and a loop over them has at most {most} iterations")
    return found


def edges_of(elements, source):
    """Each edge once, in the order in which elements come to it."""
    found = {}
    for kind, of in elements.items():
        for corners in of:
            for a, b in KINDS[kind][3]:
                a, b = corners[a], corners[b]
                found[(a, b) if a < b else (b, a)] = None
    if len(found) > common.ELEMENTS:
        raise source.fault(f"{len(found)} edges, and an array has at most {common.ELEMENTS} elements")
    return list(found)


def program(name, points, edges, elements, steps):
    kinds = [(KINDS[it][0], KINDS[it][2], len(of)) for it, of in elements.items()]
    yield f"PROGRAM MESH ! made from {name}: edge I joins points A(I) and B(I); the corners of element I stand in arrays by number"
    counted = "".join(f", N{kind} = {many}" for kind, _, many in kinds)
    yield f"PARAMETER (NP = {points}, NE = {edges}{counted}, LAST = {steps})"
    yield "INTEGER*8 X(NP), F(NP), M(NP), A(NE), B(NE), HOME(NE)"
    for kind, corners, _ in kinds:
        many = f"(N{kind})"
        yield f"INTEGER*8 {', '.join(f'{kind}{it}{many}' for it in range(1, corners + 1))}, {kind}SUM{many}, {kind}HOME{many}"
    yield f"DECOMPOSITION POINTS(NP), EDGES(NE){''.join(f', {kind}S(N{kind})' for kind, _, _ in kinds)}"
    yield "ALIGN X(I), F(I) WITH POINTS(I)"
    yield "ALIGN A(I), B(I) WITH EDGES(I)"
    for kind, corners, _ in kinds:
        yield f"ALIGN {', '.join(f'{kind}{it}(I)' for it in range(1, corners + 1))}, {kind}SUM(I) WITH {kind}S(I)"
    yield "READ X, M, A, B"
    for kind, corners, _ in kinds:
        yield f"READ {', '.join(f'{kind}{it}' for it in range(1, corners + 1))}"
    yield f"OUTPUT X{''.join(f', {kind}SUM' for kind, _, _ in kinds)}"
    yield "DISTRIBUTE POINTS(M)"
    yield from common.placed("NE", "A", "EDGES", "HOME", "each edge to the node of its first point")
    for kind, _, _ in kinds:
        yield from common.placed(f"N{kind}", f"{kind}1", f"{kind}S", f"{kind}HOME", "each element to the node of its first corner")
    yield "DO K = 1, LAST"
    yield "FORALL I = 1, NE"
    yield "REDUCE(ADD, F(A(I)), X(B(I)) - X(A(I)))"
    yield "REDUCE(ADD, F(B(I)), X(A(I)) - X(B(I)))"
    yield "END FORALL"
    yield "FORALL I = 1, NP"
    yield "X(I) = X(I) + F(I)"
    yield "F(I) = 0"
    yield "END FORALL"
    yield "END DO"
    for kind, corners, _ in kinds:
        yield f"FORALL I = 1, N{kind}"
        yield f"{kind}SUM(I) = {' + '.join(f'X({kind}{it}(I))' for it in range(1, corners + 1))}"
        yield "END FORALL"
    yield "END"


def read(given, scale):
    """The mesh of the files that are named, and the source that its counts are held against."""
    suffixes = [it.rpartition(".")[2].lower() for it in given.files]
    if suffixes == ["msh"]:
        source = common.Source(given.files[0], "")
        return gmsh(source, scale), source
    if suffixes == ["node", "ele"]:
        mesh, first = triangle_points(common.Source(given.files[0], "#"), scale)
        source = common.Source(given.files[1], "#")
        return triangle_elements(source, mesh, first), source
    raise common.Fault("the files of a mesh are FILE.node FILE.ele, or FILE.msh", 2)


def parts_of(mesh, given):
    """The part of each point, and what is said of it."""
    axes, names = mesh.axes, [f"place{it}.csv" for it in range(1, len(mesh.axes) + 1)]
    parts = min(given.parts, mesh.count())
    how, by_hand = common.bisecting(given.bisect), f"chaosbisect {parts} {mesh.count()} 4 {' '.join(names)} >m.csv"
    if how:
        return common.bisected(how, parts, axes), f"m.csv has {parts} parts by chaosbisect"
    said = f"m.csv has blocks, since chaosbisect doesn't stand here; once make programs or make try has built it: {by_hand}"
    return common.in_blocks(mesh.count(), parts), said


def make(given):
    scale = common.Scale(given.scale)
    mesh, source = read(given, scale)
    elements = highest(mesh, source)
    edges, points = edges_of(elements, source), mesh.count()
    x, lost = common.values(given.values, points, given.scale) if given.values else (range(1, points + 1), [])
    parts, how = parts_of(mesh, given)
    files = {
        f"{given.name}.fd": common.lines(*program(common.named(given.files[0]), points, len(edges), elements, given.steps)),
        "x.csv": common.column(x),
        "m.csv": common.column(parts),
        "a.csv": common.column(it[0] for it in edges),
        "b.csv": common.column(it[1] for it in edges),
    }
    for at, axis in enumerate(mesh.axes, 1):
        files[f"place{at}.csv"] = common.column(axis)
    for kind, of in elements.items():
        for at in range(KINDS[kind][2]):
            files[f"{KINDS[kind][0].lower()}{at + 1}.csv"] = common.column(it[at] for it in of)
    counted = ", ".join(f"{len(of)} of kind {KINDS[it][0]}" for it, of in elements.items())
    said = [f"{given.name}.fd: {points} points, {len(edges)} edges, elements: {counted}", how, scale.told("coordinates"), *mesh.said]
    return files, said + lost


def main():
    told = common.words(__doc__, "mesh", ("files", "+", "FILE.node FILE.ele, or FILE.msh"))
    told.add_argument("--bisect", metavar="PROGRAM", help="the program chaosbisect; where it isn't said one that stands is looked for")
    told.add_argument("--steps", type=common.number_in(1, 1000), default=10, metavar="K", help="sweeps (10)")
    return common.ran(make, told)


if __name__ == "__main__":
    sys.exit(main())
