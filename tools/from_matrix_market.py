#!/usr/bin/env python3
"""From a sparse matrix in a Matrix Market file to csv files and a program, product.fd, of its product by a vector.

Taken: coordinate; pattern, integer or real; general or symmetric. docs/FILES.md tells what is written.
"""
import sys

import common

FIELDS = {"pattern": 2, "integer": 3, "real": 3}
SYMMETRIES = ("general", "symmetric")


def header(source):
    found = source.any_line("%%MatrixMarket").split()
    words = [it.lower() for it in found]
    if words[:1] != ["%%matrixmarket"] or len(words) != 5:
        raise source.fault("the first line isn't %%MatrixMarket matrix coordinate FIELD SYMMETRY")
    if words[1:3] != ["matrix", "coordinate"]:
        raise source.fault(f"{common.shown(' '.join(found[1:3]))} isn't taken: matrix coordinate is")
    for word, taken in (words[3], tuple(FIELDS)), (words[4], SYMMETRIES):
        if word not in taken:
            raise source.fault(f"{common.shown(word)} isn't taken: {', '.join(taken)} are")
    return words[3], words[4] == "symmetric"


def sizes(source, is_symmetric, times):
    height, width, many = source.fields("the line of sizes", 3)
    height, width = source.size(height, "the number of rows"), source.size(width, "the number of columns")
    if is_symmetric and height != width:
        raise source.fault(f"a symmetric matrix of {height} rows and {width} columns")
    if times > 1 and height != width:
        raise source.fault(f"{times} products one after another want a square matrix, and this has {height} rows and {width} columns")
    return height, width, source.size(many, "the number of entries")


def entries(source, kind, is_symmetric, height, width, many, scale):
    """Rows, columns and numbers of the entries, those that symmetry adds at the end."""
    rows, columns, numbers = [], [], []
    for at in range(1, many + 1):
        found = source.fields(f"entry {at} of {many}", FIELDS[kind])
        row, column = source.whole(found[0], "a row", 1, height), source.whole(found[1], "a column", 1, width)
        if is_symmetric and row < column:
            raise source.fault(f"entry {row} {column} stands above the diagonal of a symmetric matrix, which is told by the half below")
        rows.append(row)
        columns.append(column)
        if kind == "integer":
            numbers.append(source.whole(found[2], "a value"))
        elif kind == "real":
            numbers.append(scale.number(source, found[2], "a value"))
    source.ends(f"the {many} entries")
    if is_symmetric:
        beside = [it for it in range(many) if rows[it] != columns[it]]
        if many + len(beside) > common.ELEMENTS:
            raise source.fault(f"{many + len(beside)} entries with the other half, and an array has at most {common.ELEMENTS} elements")
        rows, columns = rows + [columns[it] for it in beside], columns + [rows[it] for it in beside]
        numbers += [numbers[it] for it in beside] if numbers else []
    return rows, columns, numbers


def parted(height, rows, parts):
    """Rows in parts one after another, with about as many entries in each."""
    counts = [0] * (height + 1)
    for row in rows:
        counts[row] += 1
    before, found = 0, []
    for row in range(1, height + 1):
        found.append(min(parts - 1, (2 * before + counts[row]) * parts // (2 * len(rows))))
        before += counts[row]
    return found


def program(name, height, width, many, has_values, times):
    is_again = times > 1
    square = height == width
    value = "V(I)*" if has_values else ""
    yield f"PROGRAM PRODUCT ! made from {name}: {'value V(I)' if has_values else 'a 1'} stands in row R(I), column C(I)"
    yield f"PARAMETER (NR = {height}, NC = {width}, NZ = {many}{f', LAST = {times}' if is_again else ''})"
    yield f"INTEGER*8 X(NC), Y(NR), M(NR), {'V(NZ), ' if has_values else ''}R(NZ), C(NZ), HOME(NZ)"
    yield "DECOMPOSITION ROWS(NR), VALUES(NZ)"
    yield f"ALIGN {'X(I), ' if square else ''}Y(I) WITH ROWS(I)"
    yield f"ALIGN {'V(I), ' if has_values else ''}R(I), C(I) WITH VALUES(I)"
    yield f"READ X, M, {'V, ' if has_values else ''}R, C"
    yield f"OUTPUT {'X' if is_again else 'Y'}"
    yield "DISTRIBUTE ROWS(M)"
    yield from common.placed("NZ", "R", "VALUES", "HOME", "each value to the node of its row")
    if is_again:
        yield "DO K = 1, LAST"
    yield "FORALL I = 1, NZ"
    yield f"REDUCE(ADD, Y(R(I)), {value}X(C(I)))"
    yield "END FORALL"
    if is_again:
        yield "FORALL I = 1, NR"
        yield "X(I) = Y(I)"
        yield "Y(I) = 0"
        yield "END FORALL"
        yield "END DO"
    yield "END"


def make(given):
    source, scale = common.Source(given.file, "%"), common.Scale(given.scale)
    kind, is_symmetric = header(source)
    height, width, many = sizes(source, is_symmetric, given.times)
    rows, columns, numbers = entries(source, kind, is_symmetric, height, width, many, scale)
    x, lost = common.values(given.values, width, given.scale) if given.values else ([1] * width, [])
    files = {
        f"{given.name}.fd": common.lines(*program(common.named(given.file), height, width, len(rows), bool(numbers), given.times)),
        "x.csv": common.column(x),
        "m.csv": common.column(parted(height, rows, given.parts)),
        "r.csv": common.column(rows),
        "c.csv": common.column(columns),
    }
    if numbers:
        files["v.csv"] = common.column(numbers)
    said = [f"{given.name}.fd: {height} rows, {width} columns, {len(rows)} entries; m.csv has rows in {given.parts} parts"]
    said += [scale.told("values")] if kind == "real" else []
    return files, said + lost


def main():
    told = common.words(__doc__, "product", ("file", None, "the Matrix Market file"))
    told.add_argument("--times", type=common.number_in(1, 1000), default=1, metavar="K", help="products one after another (1)")
    return common.ran(make, told)


if __name__ == "__main__":
    sys.exit(main())
