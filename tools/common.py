"""What the tools share: a file's lines with their places, faults, numbers scaled to integers, parts, files written all or not at all."""
import argparse
import os
import re
import shutil
import subprocess
import sys
import tempfile

TOP = os.path.dirname(os.path.dirname(os.path.abspath(__file__)))
# limits of the language: elements of an array; iterations times references of a FORALL
ELEMENTS, WORK = 1_048_576, 16_777_216
LEAST, GREATEST = -(2**63), 2**63 - 1
WHOLE = re.compile(r"[+-]?[0-9]{1,400}$")
REAL = re.compile(r"([+-]?)([0-9]{0,400})(?:\.([0-9]{0,400}))?(?:[eEdD]([+-]?[0-9]{1,6}))?$")


class Fault(Exception):
    """What stops a tool: the line that it says, and its status."""

    def __init__(self, text, status=65):
        super().__init__(text)
        self.status = status


def shown(text):
    """A field as a fault shows it: short, and without bytes that a terminal takes for itself."""
    text = "".join(it if " " <= it <= "~" else "?" for it in text)
    return f"'{text[:24]}..'" if len(text) > 26 else f"'{text}'"


class Source:
    """The lines of a file. `at` is the number of the line that was taken last."""

    def __init__(self, name, comment):
        self.name, self.comment, self.at = name, comment, 0
        try:
            with open(name, encoding="latin-1") as told:
                self.lines = told.read().split("\n")
        except OSError:
            raise Fault(f"cannot read {name}", 69) from None
        if self.lines[-1] == "":
            self.lines.pop()

    def fault(self, cause):
        return Fault(f"{self.name}:{max(self.at, 1)}: {cause}")

    def any_line(self, what):
        """The next line, whatever stands there."""
        if self.at == len(self.lines):
            raise self.fault(f"the file ends where {what} should stand")
        self.at += 1
        return self.lines[self.at - 1]

    def skip(self):
        """Goes over lines that are blank or a comment."""
        while self.at < len(self.lines):
            line = self.lines[self.at].lstrip()
            if line and not (self.comment and line.startswith(self.comment)):
                return
            self.at += 1

    def fields(self, what, many=None):
        """The fields of the next line that is neither blank nor a comment."""
        self.skip()
        line = self.any_line(what)
        found = (line.partition(self.comment)[0] if self.comment else line).split()
        if many is not None and len(found) != many:
            raise self.fault(f"{len(found)} fields where {what} has {many}")
        return found

    def ends(self, what):
        self.skip()
        if self.at < len(self.lines):
            self.at += 1
            raise self.fault(f"more lines than {what}")

    def whole(self, text, what, least=LEAST, most=GREATEST):
        if not WHOLE.match(text):
            raise self.fault(f"{what} is {shown(text)}, no whole number")
        number = int(text)
        if not least <= number <= most:
            raise self.fault(f"{what} is {shown(text)}, not one of {least} to {most}")
        return number

    def size(self, text, what, least=1):
        """A count of what becomes an array."""
        number = self.whole(text, what, least)
        if number > ELEMENTS:
            raise self.fault(f"{what} is {number}, and an array has at most {ELEMENTS} elements")
        return number


class Scale:
    """Real numbers as integers: each times the factor, to the nearest integer, and what was lost by that."""

    def __init__(self, factor):
        self.factor, self.many, self.inexact, self.worst = factor, 0, 0, 0.0

    def number(self, source, text, what):
        self.many += 1
        if WHOLE.match(text):
            number = int(text) * self.factor
        else:
            number = self.nearest(source, text, what)
        if not LEAST <= number <= GREATEST:
            times = f" times {self.factor}" if self.factor > 1 else ""
            raise source.fault(f"{what} is {shown(text)}, which{times} is no signed 64-bit number")
        return number

    def nearest(self, source, text, what):
        found = REAL.match(text)
        if not found or not (found[2] or found[3]):
            raise source.fault(f"{what} is {shown(text)}, no number")
        behind = found[3] or ""
        digits, power = int(found[2] + behind), int(found[4] or 0) - len(behind)
        if digits and power > 40:
            return GREATEST + 1
        # numbers smaller than any that counts are cut to a power that is quick to compute with
        under = 10 ** min(-power, 900) if power < 0 else 1
        over = digits * self.factor * (10**power if power > 0 else 1)
        number, rest = divmod(over, under)
        up = 2 * rest > under or (2 * rest == under and number % 2)
        if rest:
            self.inexact += 1
            self.worst = max(self.worst, (under - rest if up else rest) / under / self.factor)
        number += up
        return -number if found[1] == "-" else number

    def told(self, what):
        lost = f"{self.inexact} of {self.many} aren't whole then, off by at most {self.worst:.3g}" if self.inexact else "nothing is lost"
        return f"{what} times {self.factor}: {lost}"


def values(name, count, factor):
    """The numbers of a file of one number a line, for the elements of X: as they are where all are whole, else times the factor."""
    source = Source(name, "#")
    texts = []
    for _ in range(count):
        (text,) = source.fields(f"value {len(texts) + 1} of {count}", 1)
        texts.append((source.at, text))
    source.ends(f"the {count} values")
    scale, numbers = Scale(1 if all(WHOLE.match(text) for _, text in texts) else factor), []
    for source.at, text in texts:
        numbers.append(scale.number(source, text, "a value"))
    return numbers, [scale.told("numbers of X")] if scale.factor > 1 else []


def in_blocks(count, parts):
    width = -(-count // parts)
    return [it // width for it in range(count)]


def bisecting(given):
    """The program that bisects, if it stands: the one that is named, a proved one, one that `make try` built, or one on the path."""
    named = given or os.environ.get("CHAOSBISECT")
    stand = [f"{TOP}/crates/chaosbisect/out/chaosbisect", f"{TOP}/.try/chaosbisect", shutil.which("chaosbisect") or ""]
    stand = [named] if named else stand
    return next((os.path.abspath(it) for it in stand if os.access(it, os.X_OK) and not os.path.isdir(it)), None)


def bisected(program, parts, axes):
    """The part of each element, by chaosbisect over its coordinates."""
    count = len(axes[0])
    with tempfile.TemporaryDirectory() as room:
        names = [f"place{it}.csv" for it in range(1, len(axes) + 1)]
        write(room, {name: column(axis) for name, axis in zip(names, axes)})
        ran = subprocess.run([program, str(parts), str(count), "4", *names], cwd=room, stdout=subprocess.PIPE)
    found = [int(it) for it in ran.stdout.split()] if ran.returncode == 0 else []
    if len(found) != count:
        raise Fault(f"{program} ended with status {ran.returncode} and {len(found)} of {count} parts", 70)
    return found


def column(numbers):
    return "\n".join(map(str, numbers)) + "\n"


def lines(*given):
    return "".join(f"{it}\n" for it in given)


def named(name):
    """A file's name for a comment of a program."""
    return "".join(it if " " <= it <= "~" else "?" for it in os.path.basename(name))[:60]


def placed(count, by, decomposition, home, why):
    """Statements that put what has an index array to the nodes of the elements that it names."""
    yield f"FORALL I = 1, {count}"
    yield f"{home}(I) = M({by}(I))"
    yield "END FORALL"
    yield f"DISTRIBUTE {decomposition}({home}) ! {why}"


def write(folder, files):
    """Writes all files into a folder: first beside their places, then into them."""
    os.makedirs(folder, exist_ok=True)
    with tempfile.TemporaryDirectory(prefix=".made-", dir=folder) as room:
        for name, text in files.items():
            with open(f"{room}/{name}", "w", encoding="ascii") as out:
                out.write(text)
        for name in files:
            os.replace(f"{room}/{name}", f"{folder}/{name}")


def number_in(least, most):
    def taken(text):
        if not WHOLE.match(text) or not least <= int(text) <= most:
            raise argparse.ArgumentTypeError(f"{shown(text)} isn't one of {least} to {most}")
        return int(text)

    return taken


def words(about, name, *files):
    """The words that every tool takes; the program is called so where nothing else is said."""
    told = argparse.ArgumentParser(description=about, formatter_class=argparse.RawDescriptionHelpFormatter, allow_abbrev=False)
    for word, many, said in files:
        told.add_argument(word, nargs=many, help=said)
    told.add_argument("--name", default=name, metavar="NAME", help=f"the program is NAME.fd; {name}.fd where it isn't said")
    told.add_argument("--to", default=".", metavar="FOLDER", help="where all files are written; the working folder where it isn't said")
    told.add_argument("--values", metavar="FILE", help="the numbers of X before the run, one a line")
    factor = {"type": number_in(1, 10**15), "default": 1_000_000}
    told.add_argument("--scale", **factor, metavar="FACTOR", help="real numbers are taken times this (1000000)")
    told.add_argument("--parts", type=number_in(1, 64), default=4, metavar="N", help="how many parts the map has (4)")
    return told


def ran(make, told):
    """Runs a tool: files and lines of `make` are written and said, or its fault is said and nothing written."""
    given = told.parse_args()
    try:
        files, said = make(given)
        write(given.to, files)
    except Fault as it:
        print(it, file=sys.stderr)
        return it.status
    except OSError as it:
        print(f"cannot write to {given.to}: {it.strerror}", file=sys.stderr)
        return 74
    print("\n".join(said))
    return 0
