#!/usr/bin/env python3
"""A small model of the language, written from docs/LANGUAGE.md alone: it shares no line with the programs of this repository.

  examples/model.py FOLDER/NAME.fd              the text
  examples/model.py FOLDER/NAME.fd N RULE       the report on N nodes, RULE being owner or most
  examples/model.py FOLDER/NAME.fd N RULE loads     for each FORALL the iterations that each node runs in its last execution

It takes accepted programs alone, and is slow: every element that an iteration reads or writes is looked up on its own.
The stored texts and reports of the examples are its answers; `make examples` compares them with those of the programs.
"""
import os
import re
import sys

TOKEN = re.compile(r"[A-Z][A-Z0-9_]*|\d+|[(),=+*-]")
COMBINE = {"ADD": lambda a, b: wrap(a + b), "MIN": min, "MAX": max}


def wrap(value):
    return (value + 2**63) % 2**64 - 2**63


class Line:
    """The tokens of one line, from left to right."""

    def __init__(self, text):
        self.words = TOKEN.findall(text)

    def see(self):
        return self.words[0] if self.words else ""

    def next(self, *wanted):
        word = self.words.pop(0)
        assert not wanted or word in wanted, (word, wanted)
        return word

    def skips(self, word):
        return self.see() == word and bool(self.words.pop(0))


def tree(line, factor):
    """A sum of products; a leading sign covers the first term."""

    def product():
        left = factor(line)
        while line.skips("*"):
            left = ("*", left, factor(line))
        return left

    sign = line.next() if line.see() in ("+", "-") else "+"
    left = ("-", ("number", 0), product()) if sign == "-" else product()
    while line.see() in ("+", "-"):
        left = (line.next(), left, product())
    return left


def scalar(line):
    def factor(line):
        word = line.next()
        if word == "(":
            inner = scalar(line)
            line.next(")")
            return inner
        return ("number", int(word)) if word.isdigit() else ("name", word)

    return tree(line, factor)


def offset(line):
    sum = ("number", 0)
    while line.see() in ("+", "-"):
        sign, term = line.next(), Line("")
        while line.words and (term.words.count("(") > term.words.count(")") or line.see() not in ("+", "-", ")")):
            term.words.append(line.next())
        sum = (sign, sum, scalar(term))
    return sum


def exact(it, names):
    if it[0] == "number":
        return it[1]
    if it[0] == "name":
        return names[it[1]]
    left, right = exact(it[1], names), exact(it[2], names)
    return left + right if it[0] == "+" else left - right if it[0] == "-" else left * right


class Loop:
    """A FORALL: references from 1 in the order of the text, an index reference directly before the one that it serves."""

    def __init__(self, number, line):
        self.number, self.index = number, line.next()
        line.next("=")
        self.low = scalar(line)
        line.next(",")
        self.high, self.references, self.body = scalar(line), [], []
        self.executed = self.inspected = self.gathered = self.scattered = 0
        self.record, self.loads = None, {}

    def through(self, line, levels):
        """A subscript through index arrays: at most so many, each an index reference, the innermost first."""
        name = line.next()
        line.next("(")
        if line.skips(self.index):
            inner = ("plain", offset(line))
        else:
            assert levels > 1, line.words
            inner = self.through(line, levels - 1)
        self.references.append(("index", name, inner))
        line.next(")")
        return ("through", offset(line))

    def element(self, line, name, role):
        line.next("(")
        if line.skips(self.index):
            form = ("plain", offset(line))
        elif line.words[1:2] == ["("] and line.see() not in "(+-":
            form = self.through(line, 2)
        else:
            form = ("scalar", scalar(line))
        line.next(")")
        self.references.append((role, name, form))
        return len(self.references) - 1

    def statement(self, line):
        operator = None
        if line.skips("REDUCE"):
            line.next("(")
            operator = line.next()
            line.next(",")
        target = self.element(line, line.next(), "target")
        line.next("," if operator else "=")

        def factor(line):
            word = line.next()
            if word == "(":
                inner = tree(line, factor)
                line.next(")")
                return inner
            if word.isdigit():
                return ("number", int(word))
            return ("read", self.element(line, word, "read")) if line.see() == "(" else ("name", word)

        self.body.append((operator, target, tree(line, factor)))


class Program:
    def __init__(self, path):
        self.names, self.extents, self.aligned, self.forms, self.read, self.outputs = {}, {}, {}, {}, [], []
        self.statements, nest = [], []
        self.loops, nest = [], [self.statements]
        with open(path, encoding="latin-1") as told:
            lines = [Line(text.split("!")[0].upper()) for text in told]
        for number, line in enumerate(lines, 1):
            if line.words:
                self.statement(number, line, nest)
        for name, extent in self.extents.items():
            if name not in self.aligned:
                self.aligned[name] = (name, 0)
                self.forms[name] = ("BLOCK", extent)
        self.store = {name: [0] * extent for name, extent in self.extents.items()}
        for name in self.read:
            with open(os.path.join(os.path.dirname(path) or ".", f"{name.lower()}.csv"), encoding="ascii") as told:
                self.store[name] = [int(it) for it in told.read().split()]
            assert len(self.store[name]) == self.extents[name], name

    def statement(self, number, line, nest):
        word = line.next()
        if isinstance(nest[-1], Loop):
            if word in ("ENDFORALL", "END"):
                nest.pop()
            else:
                line.words.insert(0, word)
                nest[-1].statement(line)
        elif word == "PARAMETER":
            line.next("(")
            while not line.skips(")"):
                name = line.next()
                line.next("=")
                self.names[name] = exact(scalar(line), self.names)
                line.skips(",")
        elif word in ("INTEGER", "DECOMPOSITION"):
            if line.skips("*"):
                line.next("8")
            while line.words:
                name = line.next()
                line.next("(")
                extent = exact(scalar(line), self.names)
                line.next(")")
                if word == "INTEGER":
                    self.extents[name] = extent
                else:
                    self.forms[name] = ("BLOCK", extent)
                line.skips(",")
        elif word == "ALIGN":
            arrays = []
            while not line.skips("WITH"):
                arrays.append(line.next())
                line.words[:3] = []
                line.skips(",")
            target = line.next()
            line.words[:2] = []
            add = exact(offset(line), self.names)
            self.aligned.update({name: (target, add) for name in arrays})
        elif word in ("READ", "OUTPUT"):
            (self.read if word == "READ" else self.outputs).extend(it for it in line.words if it != ",")
        elif word == "DISTRIBUTE":
            name = line.next()
            line.next("(")
            form = (line.next(),)
            if form == ("CYCLIC",) and line.skips("("):
                form = ("CYCLIC(b)", exact(scalar(line), self.names))
            nest[-1].append(("distribute", name, form))
        elif word == "PRINT":
            nest[-1].append(("print", line.next()))
        elif word == "DO":
            variable = line.next()
            line.next("=")
            low = scalar(line)
            line.next(",")
            nest[-1].append(("do", variable, low, scalar(line), []))
            nest.append(nest[-1][-1][4])
        elif word == "FORALL":
            self.loops.append(Loop(number, line))
            nest[-1].append(("forall", self.loops[-1]))
            nest.append(self.loops[-1])
        elif word in ("END", "ENDDO"):
            nest.pop()


class Stopped(Exception):
    pass


class Run:
    """The sequential run, and beside it what a run on nodes counts."""

    def __init__(self, program, nodes=1, rule="owner"):
        self.program, self.nodes, self.rule, self.lines, self.step = program, nodes, rule, [], 0
        self.store, self.changes = program.store, dict.fromkeys(program.extents, 0)
        self.extents = {name: form[1] for name, form in program.forms.items()}
        self.versions = dict.fromkeys(self.extents, 0)
        # each decomposition's form, for a map with its change number, and the owners of its elements
        self.forms = {name: (("BLOCK",), 0) for name in self.extents}
        self.owners = {name: self.dealt(("BLOCK",), extent) for name, extent in self.extents.items()}
        try:
            self.block(program.statements, dict(program.names))
        except Stopped:
            pass
        for name in program.outputs:
            self.print(name)

    def dealt(self, form, extent):
        if form[0] == "BLOCK":
            return [(g - 1) // -(-extent // self.nodes) for g in range(1, extent + 1)]
        if form[0] == "CYCLIC":
            return [(g - 1) % self.nodes for g in range(1, extent + 1)]
        if form[0] == "CYCLIC(b)":
            return [(g - 1) // form[1] % self.nodes for g in range(1, extent + 1)]
        return [value % self.nodes for value in self.store[form[0]]]

    def print(self, name):
        self.lines.append(f"{name} = " + " ".join(map(str, self.store[name])))

    def block(self, statements, names):
        for it in statements:
            if it[0] == "do":
                for value in range(exact(it[2], names), exact(it[3], names) + 1):
                    self.block(it[4], {**names, it[1]: value})
                continue
            if it[0] == "print":
                self.print(it[1])
            elif it[0] == "distribute":
                self.distribute(it[1], it[2])
            else:
                self.forall(it[1], names)
            self.step += 1

    def distribute(self, name, form):
        new = (form, self.changes.get(form[0], 0))
        if new != self.forms[name]:
            self.forms[name], self.owners[name] = new, self.dealt(form, self.extents[name])
            self.versions[name] += 1

    def subscripts(self, loop, i, names):
        """The subscript of each reference at an iteration, None where its index reference is outside."""
        found, given = [], None
        for role, array, (form, add) in loop.references:
            value = exact(add, names)
            if form == "plain":
                value += i
            elif form == "through":
                value = None if given is None else given + value
            inside = value is not None and 1 <= value <= self.program.extents[array]
            given = self.store[array][value - 1] if inside else None
            found.append(value)
            if value is not None and not inside:
                self.lines.append(
                    f"refused: line {loop.number}, iteration {i}: subscript {value} of {array} is outside 1 to {self.program.extents[array]}"
                )
                raise Stopped
        return found

    def value(self, it, names, at, loop, i):
        if it[0] == "number":
            return it[1]
        if it[0] == "name":
            return i if it[1] == loop.index else names[it[1]]
        if it[0] == "read":
            return self.store[loop.references[it[1]][1]][at[it[1]] - 1]
        left, right = (self.value(part, names, at, loop, i) for part in it[1:])
        return wrap(left + right if it[0] == "+" else left - right if it[0] == "-" else left * right)

    def forall(self, loop, names):
        low, high = exact(loop.low, names), exact(loop.high, names)
        if high < low:
            return
        all_at = {i: self.subscripts(loop, i, names) for i in range(low, high + 1)}
        self.count(loop, low, high, names, all_at)
        writes = [
            (operator, loop.references[target][1], at[target], self.value(value, names, at, loop, i))
            for i, at in all_at.items()
            for operator, target, value in loop.body
        ]
        for operator, array, element, value in writes:
            old = self.store[array][element - 1]
            self.store[array][element - 1] = COMBINE[operator](old, value) if operator else value
        for _, target, _ in loop.body:
            self.changes[loop.references[target][1]] = self.step + 1

    def owner(self, array, element):
        name, add = self.program.aligned[array]
        return self.owners[name][element + add - 1]

    def home(self, loop, at):
        owners = [self.owner(array, element) for (_, array, _), element in zip(loop.references, at)]
        if self.rule == "owner":
            return owners[loop.body[0][1]]
        return max(range(self.nodes), key=lambda node: (owners.count(node), -node))

    def count(self, loop, low, high, names, all_at):
        record = (
            (low, high),
            [exact(add, names) for _, _, (_, add) in loop.references],
            {self.program.aligned[array][0]: self.versions[self.program.aligned[array][0]] for _, array, _ in loop.references},
            {array: self.changes[array] for role, array, _ in loop.references if role == "index"},
        )
        loop.executed += 1
        loop.inspected += record != loop.record
        loop.record, loop.loads = record, dict.fromkeys(range(self.nodes), 0)
        needed, given = set(), set()
        for at in all_at.values():
            home = self.home(loop, at)
            loop.loads[home] += 1
            for (role, array, _), element in zip(loop.references, at):
                owner = self.owner(array, element)
                if owner != home and role != "index":
                    (needed if role == "read" else given).add((home, owner, array, element))
        loop.gathered += len(needed)
        loop.scattered += len(given)


def main(path, nodes="1", rule="owner", loads=""):
    program = Program(path)
    run = Run(program, int(nodes), rule)
    if len(sys.argv) == 2:
        print(*run.lines, sep="\n")
    for it in program.loops if len(sys.argv) > 2 else []:
        told = f"executed {it.executed}, inspected {it.inspected}, gathered {it.gathered}, scattered {it.scattered}"
        print(f"loop {it.number}: " + (" ".join(map(str, it.loads.values())) if loads else told))


if __name__ == "__main__":
    main(*sys.argv[1:])
