#!/usr/bin/env python3
"""Runs what the pages show, and compares: every command of a console block, and every row of the table of messages; follows all links to files.

  docs/run.py [PAGE ..]      all pages, or those that are named

In a page a block ```fortran NAME.fd is a file, and a block ```console has commands behind `$ `, each with all that it writes below it. The
commands of a page run one after another by sh in a folder of its own with the page's files; CHAOSPLAY, CHAOSRUN and so on name
other programs than those that stand. In MESSAGES.md each row `| written | command | status | .. |` runs in a copy of docs/messages.
"""
import os
import re
import shutil
import subprocess
import sys
import tempfile

TOP = os.path.dirname(os.path.dirname(os.path.abspath(__file__)))
PAGES = ["README.md", "docs/LANGUAGE.md", "docs/FORMATS.md", "docs/MESSAGES.md"]
BLOCK = re.compile(r"^```(\w+) ?(\S*)\n(.*?)^```$", re.M | re.S)
ROW = re.compile(r"^\| (?:`(.*?)`|nothing) \| `(.*?)` \| (\d+) \|", re.M)


def programs(room):
    """A folder with all programs, for the commands' path."""
    for name in "chaosplay", "chaosrun", "chaosbisect", "chaosappend":
        made = os.environ.get(name.upper(), f"{TOP}/crates/{name}/out/{name}")
        os.symlink(os.path.abspath(made), f"{room}/{name}")
    return {**os.environ, "PATH": f"{room}{os.pathsep}{os.environ['PATH']}"}


def run(command, room, paths):
    ran = subprocess.run(["sh", "-c", command], cwd=room, env=paths, stdin=subprocess.DEVNULL, stdout=subprocess.PIPE, stderr=subprocess.STDOUT)
    return ran.stdout.decode(errors="replace"), ran.returncode


def blocks(page, room, paths):
    """Runs a page's blocks in their order; gives how many commands there are and how many wrote something else."""
    many = wrong = 0
    for kind, name, inside in BLOCK.findall(page):
        if kind == "fortran" and name:
            with open(f"{room}/{name}", "w", encoding="utf-8") as out:
                out.write(inside)
        for shown in re.split(r"^\$ ", inside, flags=re.M)[1:] if kind == "console" else []:
            command, _, wanted = shown.partition("\n")
            wrote, _ = run(command, room, paths)
            many += 1
            if wrote != wanted:
                wrong += 1
                print(f"$ {command}\n{wrote}instead of\n{wanted}")
    return many, wrong


def rows(page, room, paths):
    """Runs the rows of a table of messages."""
    many = wrong = 0
    for written, command, status in ROW.findall(page):
        wrote, ended = run(command.replace(r"\|", "|"), room, paths)
        wanted = written.replace(r"\|", "|") + "\n" if written else ""
        many += 1
        # of a longer text the row has one line
        if ended != int(status) or (wrote != wanted and wanted not in wrote.splitlines(True)):
            wrong += 1
            print(f"$ {command}\n{wrote}and status {ended}, instead of {status} and\n{wanted}")
    return many, wrong


def lost(name, page):
    """Links of a page to files that aren't there."""
    found = [it.partition("#")[0] for it in re.findall(r"\]\(([^)\s]+)\)", page)]
    return [it for it in found if it and not os.path.exists(os.path.join(TOP, os.path.dirname(name), it))]


def linked():
    """How many links of all pages lead nowhere."""
    wrong = 0
    for name in subprocess.run(["git", "ls-files", "*.md"], cwd=TOP, stdout=subprocess.PIPE, text=True).stdout.split():
        with open(f"{TOP}/{name}", encoding="utf-8") as told:
            for it in lost(name, told.read()):
                wrong += 1
                print(f"{name}: a link to {it}, which isn't there")
    return wrong


def main(names):
    failed = 0 if names else linked()
    for name in names or PAGES:
        with open(f"{TOP}/{name}", encoding="utf-8") as told, tempfile.TemporaryDirectory() as place:
            page = told.read()
            os.mkdir(f"{place}/bin")
            paths = programs(f"{place}/bin")
            shutil.copytree(f"{TOP}/docs/messages", f"{place}/messages") if name.endswith("MESSAGES.md") else os.mkdir(f"{place}/messages")
            found = [call(page, f"{place}/messages", paths) for call in (blocks, rows)]
        many, wrong = (sum(it) for it in zip(*found))
        failed += wrong
        print(f"{name}: {f'{wrong} of {many} commands differ' if wrong else f'{many} commands as shown'}")
    return 1 if failed else 0


sys.exit(main(sys.argv[1:]))
