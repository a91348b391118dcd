#!/usr/bin/env python3
"""Runs each example on one machine, in turns and on threads, by both rules, and compares text and report with what is stored.

  examples/run.py [NAME ..]      all examples, or those that are named
  examples/run.py --store        writes the stored texts and reports anew, by model.py alone

In an example's folder expected.txt is the text, owner.txt and most.txt are the reports on four nodes by each rule. A file `words` has the
words of another program, with NODES for how many nodes; lines.txt is what loop.py there tells of the other words. Where a folder has
make.py, its data are made again beside it and compared. CHAOSPLAY, CHAOSRUN and so on name other
programs than those that stand.
"""
import os
import subprocess
import sys
import tempfile

HERE = os.path.dirname(os.path.abspath(__file__))


def program(name):
    return os.environ.get(name.upper(), os.path.join(HERE, f"../crates/{name}/out/{name}"))


PLAY, RUN = program("chaosplay"), program("chaosrun")
RULES = ["owner", "most"]


def read(name):
    with open(name, "rb") as told:
        return told.read()


def examples():
    return sorted(it for it in os.listdir(HERE) if any(os.path.isfile(f"{HERE}/{it}/{file}") for file in (f"{it}.fd", "words")))


def words_here():
    """The words of another program, if the example has them."""
    return read("words").decode().split() if os.path.isfile("words") else []


def store(name):
    if words_here():
        looped = [it for it in words_here()[1:] if it != "NODES"]
        with open("lines.txt", "wb") as out:
            subprocess.run([sys.executable, "loop.py", *looped], stdout=out, check=True)
    if not os.path.isfile(f"{name}.fd"):
        return
    for file, words in [("expected.txt", []), *((f"{rule}.txt", ["4", rule]) for rule in RULES)]:
        with open(file, "wb") as out:
            out.write(subprocess.run([sys.executable, f"{HERE}/model.py", f"{name}.fd", *words], stdout=subprocess.PIPE, check=True).stdout)


def runs(name):
    """The program, its words, and the files that tell what it writes."""
    words, source = words_here(), f"{name}.fd"
    for nodes in ["1", "2", "3", "4", "16"] if words else []:
        yield program(words[0]), [nodes if it == "NODES" else it for it in words[1:]], ["lines.txt"]
    if not os.path.isfile(source):
        return
    yield PLAY, [source, "--plain"], ["expected.txt"]
    for rule in RULES:
        for which, more in (PLAY, []), (PLAY, ["--turns", "7"]), (RUN, []):
            yield which, [source, "--nodes", "4", "--iterations", rule, "--report", *more], ["expected.txt", f"{rule}.txt"]
        for nodes in "1", "3", "16":
            for which in PLAY, RUN:
                yield which, [source, "--nodes", nodes, "--iterations", rule], ["expected.txt"]


def differs(name):
    """How many runs wrote something else."""
    wrong = 0
    for which, words, files in runs(name):
        wanted = b"".join(map(read, files))
        ran = subprocess.run([which, *words], stdout=subprocess.PIPE, stderr=subprocess.STDOUT)
        status = 3 if b"refused: " in wanted else 0
        if ran.stdout != wanted or ran.returncode != status:
            wrong += 1
            print(f"{name}: {os.path.basename(which)} {' '.join(words)}: status {ran.returncode}, wrote\n{ran.stdout.decode(errors='replace')}")
    return wrong


def data_differ():
    """How many data files are others than make.py makes."""
    if not os.path.isfile("make.py"):
        return 0
    maker, wrong = os.path.abspath("make.py"), 0
    with tempfile.TemporaryDirectory() as room:
        subprocess.run([sys.executable, "-B", maker], cwd=room, check=True)
        for file in os.listdir(room):
            if read(file) != read(f"{room}/{file}"):
                wrong += 1
                print(f"{file} isn't what {maker} makes")
    return wrong


def main(words):
    failed = 0
    for name in examples() if words[:1] in ([], ["--store"]) else words:
        os.chdir(f"{HERE}/{name}")
        if words[:1] == ["--store"]:
            store(name)
            continue
        wrong = data_differ() + differs(name)
        failed += wrong
        print(f"examples/{name}: {f'{wrong} differ' if wrong else f'{len(list(runs(name)))} runs as expected'}")
    return 1 if failed else 0


sys.exit(main(sys.argv[1:]))
