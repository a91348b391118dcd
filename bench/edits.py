#!/usr/bin/env python3
"""Tries the wrong bodies that stand outside the gate, in bench/edits/CRATE/NAME.edit: the prover must refuse each.

  bench/edits.py           those of all crates
  bench/edits.py NAME ..   those of these crates

Each is a must-fail edit as `rt must-fail` reads it. The crates are copied to a folder of their own, with these edits in place of the
gate's, and tried there.
"""
import os
import shutil
import subprocess
import sys
import tempfile

ROOT = os.path.dirname(os.path.dirname(os.path.abspath(__file__)))
EDITS = os.path.join(ROOT, "bench", "edits")


def copy(room):
    """The repository's crates, without what was built and without the gate's edits, with those of bench/edits."""
    shutil.copytree(os.path.join(ROOT, "crates"), f"{room}/crates", ignore=shutil.ignore_patterns("out", "must-fail"))
    for name in "crates.txt", "HANDLES":
        shutil.copyfile(os.path.join(ROOT, name), f"{room}/{name}")
    os.mkdir(f"{room}/.git")
    for crate in os.listdir(EDITS):
        shutil.copytree(f"{EDITS}/{crate}", f"{room}/crates/{crate}/must-fail")


def main(names):
    there = sorted(os.listdir(EDITS))
    for name in names:
        if name not in there:
            print(f"bench/edits has no folder {name}", file=sys.stderr)
            return 2
    with tempfile.TemporaryDirectory() as room:
        copy(room)
        return subprocess.run(["rt", "must-fail", *(names or there)], cwd=room).returncode


if __name__ == "__main__":
    sys.exit(main(sys.argv[1:]))
