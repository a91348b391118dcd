#!/usr/bin/env python3
"""Times the programs that stand on large inputs, beside a sequential Fortran program of the same sweep, and compares every text.

  bench/run.py           all cases; the rows are kept in bench/out/rows.tsv, for bench/chart.py
  bench/run.py --quick   the sweeps of a mesh of 1000 points alone

A row has seconds, peak memory and status of one run. Of a sweep it has runs of 0, 1 and 21 steps, the fastest of three each: seconds a
step are the 21 less the 1, by 20; seconds of inspection are the 1 less the 0, less one step. Every text is compared with that of `--plain`.
CHAOSPLAY, CHAOSRUN and so on name other programs than those that stand.
"""
import os
import shutil
import subprocess
import sys
import tempfile
import time

HERE = os.path.dirname(os.path.abspath(__file__))
PLAY = os.path.abspath(os.environ.get("CHAOSPLAY", f"{HERE}/../crates/chaosplay/out/chaosplay"))
RUN = os.path.abspath(os.environ.get("CHAOSRUN", f"{HERE}/../crates/chaosrun/out/chaosrun"))
BISECT = os.path.abspath(os.environ.get("CHAOSBISECT", f"{HERE}/../crates/chaosbisect/out/chaosbisect"))
APPEND = os.path.abspath(os.environ.get("CHAOSAPPEND", f"{HERE}/../crates/chaosappend/out/chaosappend"))
NODES = ["1", "2", "4", "8", "16"]
STEPS = [0, 1, 21]


def measured(command, folder):
    """Seconds, peak memory in MiB, status and text of a run."""
    with tempfile.TemporaryFile() as text:
        begun = time.perf_counter()
        started = subprocess.Popen(command, cwd=folder, stdout=text)
        _, status, used = os.wait4(started.pid, 0)
        started.returncode = os.waitstatus_to_exitcode(status)
        seconds = time.perf_counter() - begun
        text.seek(0)
        return seconds, used.ru_maxrss / 1024, started.returncode, text.read()


class Bench:
    def __init__(self, work):
        self.work, self.rows, self.wrong, self.plain = work, [], 0, {}

    def compare(self, name, text, wanted):
        if text != wanted:
            self.wrong += 1
            print(f"{name}: its text isn't that of --plain")

    def one(self, name, command, folder, wanted=None):
        seconds, peak, status, text = measured(command, f"{self.work}/{folder}")
        print(f"{name:46} {seconds:8.2f} s {peak:8.1f} MiB  status {status}", flush=True)
        self.compare(name, text if wanted is not None else b"", wanted or b"")
        self.rows.append(("run", name, f"{seconds:.4f}", f"{peak:.1f}", str(status)))
        return text

    def sweep(self, name, command, points, base=None):
        """The runs of 0, 1 and 21 steps; gives seconds a step."""
        seconds, peak = [], 0
        for steps in STEPS:
            folder = f"{self.work}/sweep-{points}-{steps}"
            # the least of three: what differs between runs of many threads is more than a step
            runs = [measured(command(steps), folder) for _ in range(3)]
            seconds.append(min(it[0] for it in runs))
            peak = max(peak, *(it[1] for it in runs))
            text = runs[0][3]
            if folder not in self.plain:
                self.plain[folder] = measured([PLAY, "sweep.fd", "--plain"], folder)[3]
            self.compare(f"{name}, {steps} steps", text, self.plain[folder])
        step = (seconds[2] - seconds[1]) / (STEPS[2] - STEPS[1])
        inspection = max(seconds[1] - seconds[0] - step, 0)
        ratio = f"{step / base:7.1f}" if base else "      -"
        print(f"{name:46} {step:9.5f} s {ratio} {inspection:8.3f} s {peak:8.1f} MiB", flush=True)
        self.rows.append(("sweep", name, str(points), f"{step:.6f}", f"{inspection:.4f}", f"{peak:.1f}"))
        return step

    def sweeps(self, points):
        fortran, base = f"{self.work}/fortran", None
        print(f"\nSweep over {points} points and {2 * points} edges: {'':6} seconds a step, by Fortran's, of inspection, peak memory")
        if os.path.exists(fortran):
            base = self.sweep("Fortran, sequential", lambda steps: [fortran, str(points), str(2 * points), str(steps)], points)
        self.sweep("chaosplay --plain", lambda _: [PLAY, "sweep.fd", "--plain"], points, base)
        for program in PLAY, RUN:
            for nodes in NODES:
                name = f"{os.path.basename(program)} --nodes {nodes}"
                self.sweep(name, lambda _: [program, "sweep.fd", "--nodes", nodes], points, base)

    def others(self):
        self.one("source of 1 MiB, refused at its end", [PLAY, "stops.fd", "--plain"], ".")
        self.one("source of 1 MiB, run", [PLAY, "long.fd", "--plain"], ".")
        self.one("data file of 32 MiB", [PLAY, "large.fd", "--plain"], ".")
        for name, words in (
            ("mesh of 100000 points", ["--mesh", "7", "--size", "100000"]),
            ("5000 steps of one element", ["small.fd"]),
            ("9999 steps of 16 elements", ["steps.fd"]),
        ):
            plain = self.one(f"{name}, --plain", [PLAY, *words, "--plain"], ".")
            for nodes in "1", "4", "16":
                self.one(f"{name}, {nodes} nodes in turns", [PLAY, *words, "--nodes", nodes], ".", plain)
                self.one(f"{name}, {nodes} nodes by threads", [RUN, *words, "--nodes", nodes], ".", plain)

    def besides(self):
        """Steps that name little, beside much that they don't name."""
        for name, source in (
            ("50 steps of one element beside 64 arrays", "many.fd"),
            ("100 inspections beside a kept loop", "beside.fd"),
            ("100 inspections in a kept loop's array", "among.fd"),
        ):
            plain = self.one(f"{name}, --plain", [PLAY, source, "--plain"], ".")
            for nodes in "2", "4":
                self.one(f"{name}, {nodes} nodes in turns", [PLAY, source, "--nodes", nodes], ".", plain)

    def bisections(self):
        """A million elements along three axes into 64 parts."""
        words = ["64", "1048576"]
        files = ["across.csv", "down.csv", "deep.csv"]
        wanted = self.one("1048576 elements, 64 parts, 1 node", [BISECT, *words, "1", *files], ".")
        for nodes in "4", "16":
            self.one(f"1048576 elements, 64 parts, {nodes} nodes", [BISECT, *words, nodes, *files], ".", wanted)

    def particles(self):
        """Particles on 4 nodes: at the full size, and at half the particles and half the steps; and the full size on 1 and 16 nodes."""
        wanted = self.one("1048576 particles, 100 steps, 1 node", [APPEND, "4096", "100", "1048576", "1", "bins.csv", "values.csv"], ".")
        for nodes in "4", "16":
            self.one(f"1048576 particles, 100 steps, {nodes} nodes", [APPEND, "4096", "100", "1048576", nodes, "bins.csv", "values.csv"], ".", wanted)
        self.one("1048576 particles, 50 steps, 4 nodes", [APPEND, "4096", "50", "1048576", "4", "bins.csv", "values.csv"], ".")
        self.one("524288 particles, 100 steps, 4 nodes", [APPEND, "4096", "100", "524288", "4", "half-bins.csv", "half-values.csv"], ".")


def compiled(work):
    """The Fortran program, where there is a compiler."""
    if not shutil.which("gfortran"):
        print("gfortran is missing: no Fortran program runs beside ours")
        return
    subprocess.run(["gfortran", "-O2", "-fwrapv", "-o", f"{work}/fortran", f"{HERE}/sweep.f90"], cwd=work, check=True)


def main(words):
    with tempfile.TemporaryDirectory() as work:
        subprocess.run([sys.executable, f"{HERE}/inputs.py", work], check=True)
        compiled(work)
        bench = Bench(work)
        for points in [1_000] if words == ["--quick"] else [25_000, 50_000, 100_000]:
            bench.sweeps(points)
        if not words:
            print()
            bench.others()
            bench.besides()
            bench.bisections()
            bench.particles()
    os.makedirs(f"{HERE}/out", exist_ok=True)
    with open(f"{HERE}/out/rows.tsv", "w", encoding="utf-8") as out:
        out.writelines("\t".join(it) + "\n" for it in bench.rows)
    print(f"\n{f'{bench.wrong} texts differ' if bench.wrong else 'Every text is that of --plain.'}")
    return 1 if bench.wrong else 0


sys.exit(main(sys.argv[1:]))
