#!/usr/bin/env python3
"""Proves and builds all programs and puts them into their crates' out/; does nothing where they stand already.

The crates below the programs are copied to a folder of their own, without must-fail edits and crates of tests, and `rt ci`
proves that. It keeps what it proves by checksum, as the gate does, so neither proves again what the other has proved.
"""
import os
import shutil
import subprocess
import sys
import tempfile

PROGRAMS = ["chaosplay", "chaosrun", "chaosbisect", "chaosappend"]
READ = ["src", "specs", "proofs"]
ROOT = os.path.dirname(os.path.dirname(os.path.abspath(__file__)))
MINUTES = "about 65 processor minutes (35 minutes on two processors, 20 on four), less where crates of this text were proved before"


def lines():
    """The lines of crates.txt for the programs and all crates below them."""
    every = {}
    with open("crates.txt", encoding="utf-8") as told:
        for line in told:
            name, colon, below = line.split("#")[0].partition(":")
            if colon:
                every[name.split()[0]] = below.split()
    wanted, left = {}, list(PROGRAMS)
    while left:
        name = left.pop()
        if name in every and name not in wanted:
            wanted[name] = f"{name}: {' '.join(every[name])}".rstrip()
            left += every[name]
    return wanted


def made(folder, name):
    return os.path.join(folder, "crates", name, "out", name)


def newest(names):
    """When the last file that a proof of these crates reads was changed."""
    files = ["crates.txt", "HANDLES"]
    for name in names:
        for part in READ:
            files += [os.path.join(at, it) for at, _, found in os.walk(f"crates/{name}/{part}") for it in found]
    return max(os.stat(it).st_mtime for it in files)


def stand(names):
    found = [made(ROOT, it) for it in PROGRAMS]
    return all(os.access(it, os.X_OK) for it in found) and min(os.stat(it).st_mtime for it in found) > newest(names)


def copy(wanted, room):
    for name in wanted:
        shutil.copytree(f"crates/{name}", f"{room}/crates/{name}", ignore=shutil.ignore_patterns("out", "must-fail"))
    with open(f"{room}/crates.txt", "w", encoding="utf-8") as out:
        out.write("\n".join(wanted.values()) + "\n")
    shutil.copyfile("HANDLES", f"{room}/HANDLES")
    os.mkdir(f"{room}/.git")


def prove(wanted, room):
    """Runs `rt ci` over the copy and shows how far it is; all that it says comes out where it fails."""
    done, said = 0, []
    run = subprocess.Popen(["rt", "ci"], cwd=room, stdout=subprocess.PIPE, stderr=subprocess.STDOUT, text=True, errors="replace")
    for line in run.stdout:
        said.append(line)
        words = line.split()
        if words[:1] == ["rt:"] and words[1:2] and words[1] in wanted and words[2:] and (words[2] == "proved" or words[2:4] == ["is", "kept:"]):
            done += 1
            print(f"{done} of {len(wanted)}: {words[1]}", flush=True)
    if run.wait():
        sys.stdout.writelines(said)
    return run.returncode


def main():
    os.chdir(ROOT)
    wanted = lines()
    if not stand(wanted):
        print(f"Proving {len(wanted)} crates: {MINUTES}.", flush=True)
        with tempfile.TemporaryDirectory(prefix="programs-") as room:
            copy(wanted, room)
            status = prove(wanted, room)
            if status:
                return status
            for name in PROGRAMS:
                os.makedirs(os.path.dirname(made(ROOT, name)), exist_ok=True)
                shutil.copyfile(made(room, name), made(ROOT, name))
                os.chmod(made(ROOT, name), 0o755)
    print("The programs are proved and stand:")
    for name in PROGRAMS:
        print(f"  {os.path.relpath(made(ROOT, name))}")
    return 0


sys.exit(main())
