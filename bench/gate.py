#!/usr/bin/env python3
"""What the gate costs: runs `rt ci --anew` at the top of the repository and prints processor minutes.

  bench/gate.py [WORD ..]        runs `rt ci --anew`, or `rt ci WORD ..`, and prints a table: for each crate the minutes of its
                                 proof, of its must-fail edits, of its tests and of its runs, the sum, and the longest chain of proofs
  bench/gate.py --table FILE     prints the table of a run that wrote FILE (each run writes gate.tsv in the folder of temporary files)

Minutes are of processor time (user and system) of all processes below the run, looked up four times a second and
summed; what no look saw is told as the rest. The run's own output goes to standard error. Machines differ by twice and more, and one
differs from hour to hour: so the last line tells what a loop of two million additions took before the run, and beside it, by median.
"""
import os
import re
import statistics
import subprocess
import sys
import tempfile
import time

EACH = 0.25
LOOKS = 240
TICKS = os.sysconf("SC_CLK_TCK")
KINDS = ["proof", "edits", "tests", "runs"]


def processes():
    """Each process by its number: its parent, when it began, its ticks with those of children that have ended."""
    found = {}
    for name in os.listdir("/proc"):
        if name.isdigit():
            try:
                with open(f"/proc/{name}/stat", encoding="ascii", errors="replace") as told:
                    fields = told.read().rpartition(")")[2].split()
            except OSError:
                continue
            found[int(name)] = (int(fields[1]), fields[19], sum(int(it) for it in fields[11:15]))
    return found


def words_of(number):
    try:
        with open(f"/proc/{number}/cmdline", "rb") as told:
            return told.read().decode("utf-8", "replace").split("\0")
    except OSError:
        return []


def place_of(number):
    try:
        return os.readlink(f"/proc/{number}/cwd")
    except OSError:
        return ""


def is_rt(words):
    return any(it.endswith("/rt") for it in words[:2])


def kind_of(words, place):
    """The crate that a process works for, and what it does."""
    told = " ".join(words)
    named = re.search(r"--crate-name ([a-z0-9_]+)", told) or re.search(r"crates/([a-z0-9_]+)", place + " " + told)
    name = named.group(1) if named else "rt"
    # an edit is tried by a check that writes nothing, or that begins with what another kept
    if words[1:2] == ["check"] and "-o" not in words:
        return name, "edits"
    if "--test" in words:
        return name, "tests"
    if words[1:2] in (["build"], ["check"]) and words[0].endswith("/rattle"):
        return name, "proof"
    return name, "runs"


def additions():
    """Processor seconds of two million additions: how fast the machine is just now."""
    began = time.process_time()
    total = 0
    for number in range(2_000_000):
        total += number
    return time.process_time() - began


def watch(run, speeds):
    """The ticks of each process directly below the run, by crate and kind; a minute apart how fast the machine is."""
    seen, looks = {}, 0
    while run.poll() is None:
        looks += 1
        if looks % LOOKS == 0:
            speeds.append(additions())
        for number, (parent, began, ticks) in processes().items():
            if parent == run.pid:
                key = (number, began)
                kept = seen.get(key, ((), 0))
                # a process that has only just begun still has the words of rt itself
                words = words_of(number)
                kind = kept[0] if not words or kept[0] and is_rt(words) else kind_of(words, place_of(number))
                seen[key] = (kind, max(ticks, kept[1]))
        time.sleep(EACH)
    sums = {}
    for kind, ticks in seen.values():
        if kind:
            sums[kind] = sums.get(kind, 0) + ticks / TICKS
    return sums


def below(name, lines, known):
    """The dearest chain of proofs that ends at a crate: its seconds and its crates."""
    if name not in known:
        seconds, chain = max((below(it, lines, known) for it in lines[name][0]), default=(0, []))
        known[name] = (seconds + lines[name][1], chain + [name])
    return known[name]


def crates(sums):
    lines = {}
    with open("crates.txt", encoding="utf-8") as told:
        for line in told:
            line = line.split("#")[0]
            if ":" in line:
                name, deps = line.split(":")
                lines[name.split()[0]] = deps.split()
    return {name: ([it for it in deps if it in lines], sums.get((name, "proof"), 0)) for name, deps in lines.items()}


def table(sums, whole):
    lines = crates(sums)
    print("| Crate | " + " | ".join(it.capitalize() for it in KINDS) + " | Sum |")
    print("|---|" + "---|" * (len(KINDS) + 1))
    names = sorted(lines, key=lambda it: -sum(sums.get((it, kind), 0) for kind in KINDS))
    for name in names:
        row = [sums.get((name, kind), 0) / 60 for kind in KINDS]
        print(f"| {name} | " + " | ".join(f"{it:.1f}" if it >= 0.05 else "" for it in row) + f" | {sum(row):.1f} |")
    row = [sum(sums.get((name, kind), 0) for name in names) / 60 for kind in KINDS]
    print("| all | " + " | ".join(f"{it:.0f}" for it in row) + f" | {sum(row):.0f} |")
    print(f"\nProcessor minutes of the whole run: {whole / 60:.0f}; of these {whole / 60 - sum(row):.0f} are of no crate.")
    seconds, chain = max(below(name, lines, {}) for name in names)
    print(f"Longest chain of proofs: {seconds / 60:.0f} minutes, {len(chain)} crates: {', '.join(chain)}.")


def main():
    words = sys.argv[1:]
    if words[:1] == ["--table"]:
        with open(words[1], encoding="utf-8") as told:
            rows = [line.rstrip("\n").split("\t") for line in told]
        sums = {(name, kind): float(it) for name, kind, it in rows}
        return table(sums, sums.pop(("", "whole")))
    quiet, speeds = additions(), []
    began = os.times()
    run = subprocess.Popen(["rt", "ci", *(words or ["--anew"])], stdout=sys.stderr)
    sums = watch(run, speeds)
    ended = os.times()
    whole = ended.children_user + ended.children_system - began.children_user - began.children_system
    kept = os.path.join(tempfile.gettempdir(), "gate.tsv")
    with open(kept, "w", encoding="utf-8") as out:
        for (name, kind), seconds in sorted([*sums.items(), (("", "whole"), whole)]):
            out.write(f"{name}\t{kind}\t{seconds:.1f}\n")
    table(sums, whole)
    print(f"Two million additions: {quiet:.2f} s before the run, {statistics.median(speeds or [quiet]):.2f} s beside it.")
    print(f"What the run took is kept in {kept}.", file=sys.stderr)
    return run.returncode


sys.exit(main())
