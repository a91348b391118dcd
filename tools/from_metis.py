#!/usr/bin/env python3
"""From a graph in METIS' format to csv files and a program, sweep.fd, of sweeps over its edges.

Taken: any format that the line of counts may tell (sizes, weights of points, of edges). docs/FILES.md tells what is written.
"""
import sys

import common


def counts(source):
    """How many points and edges there are, the line that says so, whether edges have weights, how many sizes and weights a point has."""
    found = source.fields("the line of counts")
    if not 2 <= len(found) <= 4:
        raise source.fault(f"{len(found)} fields where the line of counts has 2 to 4")
    points, edges = source.size(found[0], "the number of points"), source.size(found[1], "the number of edges")
    form = found[2] if len(found) > 2 else "0"
    if len(form) > 3 or form.strip("01"):
        raise source.fault(f"the format is {common.shown(form)}, not up to three digits of 0 and 1")
    sizes, weights, of_edges = (it == "1" for it in form.zfill(3))
    many = source.whole(found[3], "the number of weights of a point", 1 if weights else 0, 1000) if len(found) > 3 else int(weights)
    if many and not weights:
        raise source.fault(f"{many} weights of a point, and the format {common.shown(form)} has none")
    return points, edges, source.at, of_edges, int(sizes), many


def neighbours(source, points, of_edges, sizes, many):
    """The first weight of each point; for each edge, from either end, its weight and the line."""
    first, found = [], {}
    for point in range(1, points + 1):
        fields = point_fields(source, point, points)
        before, after = fields[: sizes + many], fields[sizes + many :]
        if len(before) < sizes + many:
            raise source.fault(f"{len(before)} fields where {sizes + many} stand before a point's neighbours")
        own = [source.whole(it, "a size or weight", 0) for it in before]
        first.append(own[sizes] if many else point)
        step = 2 if of_edges else 1
        if len(after) % step:
            raise source.fault(f"the last neighbour of point {point} has no weight")
        for at in range(0, len(after), step):
            other = source.whole(after[at], "a neighbour", 1, points)
            if other == point:
                raise source.fault(f"point {point} is a neighbour of its own")
            if (point, other) in found:
                raise source.fault(f"point {other} stands twice beside point {point}")
            found[point, other] = source.whole(after[at + 1], "the weight of an edge", 1) if of_edges else 1, source.at
    return first, found


def point_fields(source, point, points):
    """The fields of a point's line. Only comments are gone over, since a blank line is a point without neighbours."""
    while True:
        line = source.any_line(f"the line of point {point} of {points}")
        if not line.lstrip().startswith("%"):
            return line.split()


def edges_of(source, edges, counted_at, found):
    """The edges, each once; both ends have told of each, with one weight."""
    told = []
    for (point, other), (weight, at) in found.items():
        back = found.get((other, point))
        if back is None or back[0] != weight:
            source.at = at
            why = f"which hasn't neighbour {point}" if back is None else f"with weight {weight}, and back it is {back[0]}"
            raise source.fault(f"point {point} has neighbour {other}, {why}")
        if point < other:
            told.append((point, other, weight))
    if len(told) != edges:
        source.at = counted_at
        raise source.fault(f"{len(told)} edges in the lines of the points, {edges} in the line of counts")
    return told


def parts_in(name, points):
    """The parts that a program has written for the points, one a line."""
    source = common.Source(name, "#")
    found = []
    for at in range(1, points + 1):
        (text,) = source.fields(f"part {at} of {points}", 1)
        found.append(source.whole(text, "a part", 0, 2**31))
    source.ends(f"the {points} parts")
    return found


def program(name, points, edges, has_weights, steps):
    weight, all_of_edge = ("W(I)*", "A, B, W") if has_weights else ("", "A, B")
    right, left = "X(B(I)) - X(A(I))", "X(A(I)) - X(B(I))"
    yield f"PROGRAM SWEEP ! made from {name}: edge I joins A(I) and B(I){' and has weight W(I)' if has_weights else ''}"
    yield f"PARAMETER (NP = {points}, NE = {edges}, LAST = {steps})"
    yield f"INTEGER*8 X(NP), F(NP), M(NP), HOME(NE), {all_of_edge.replace(',', '(NE),')}(NE)"
    yield "DECOMPOSITION POINTS(NP), EDGES(NE)"
    yield "ALIGN X(I), F(I) WITH POINTS(I)"
    yield f"ALIGN {all_of_edge.replace(',', '(I),')}(I) WITH EDGES(I)"
    yield f"READ X, M, {all_of_edge}"
    yield "OUTPUT X"
    yield "DISTRIBUTE POINTS(M)"
    yield from common.placed("NE", "A", "EDGES", "HOME", "each edge to the node of its first point")
    yield "DO K = 1, LAST"
    yield "FORALL I = 1, NE"
    yield f"REDUCE(ADD, F(A(I)), {weight}({right}))" if has_weights else f"REDUCE(ADD, F(A(I)), {right})"
    yield f"REDUCE(ADD, F(B(I)), {weight}({left}))" if has_weights else f"REDUCE(ADD, F(B(I)), {left})"
    yield "END FORALL"
    yield "FORALL I = 1, NP"
    yield "X(I) = X(I) + F(I)"
    yield "F(I) = 0"
    yield "END FORALL"
    yield "END DO"
    yield "END"


def make(given):
    source = common.Source(given.file, "%")
    points, edges, counted_at, of_edges, sizes, many = counts(source)
    first, found = neighbours(source, points, of_edges, sizes, many)
    source.ends(f"those of the {points} points")
    told = edges_of(source, edges, counted_at, found)
    x, lost = common.values(given.values, points, given.scale) if given.values else (first, [])
    files = {
        f"{given.name}.fd": common.lines(*program(common.named(given.file), points, edges, of_edges, given.steps)),
        "x.csv": common.column(x),
        "m.csv": common.column(parts_in(given.map, points) if given.map else common.in_blocks(points, given.parts)),
        "a.csv": common.column(it[0] for it in told),
        "b.csv": common.column(it[1] for it in told),
    }
    if of_edges:
        files["w.csv"] = common.column(it[2] for it in told)
    parts = f"the parts of {given.map}" if given.map else f"{given.parts} blocks"
    said = [f"{given.name}.fd: {points} points, {edges} edges; m.csv has {parts}"]
    return files, said + lost


def main():
    told = common.words(__doc__, "sweep", ("file", None, "the graph"))
    told.add_argument("--map", metavar="FILE", help="the part of each point, one a line from 0, as partitioning programs write it")
    told.add_argument("--steps", type=common.number_in(1, 1000), default=10, metavar="K", help="sweeps (10)")
    return common.ran(make, told)


if __name__ == "__main__":
    sys.exit(main())
