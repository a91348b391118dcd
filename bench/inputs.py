"""Makes the large inputs of the benchmark in the folder that is named."""
import sys
from pathlib import Path

folder = Path(sys.argv[1])
folder.mkdir(parents=True, exist_ok=True)


def write(name, text):
    (folder / name).write_text(text)


# a source of nearly 1 MiB of comments and statements that is run, and one that stops at its last line
statement = "REDUCE(ADD, Y(IA(I)), X(I)*3 - X(I))\n"
loop = "FORALL I = 1, 4\n" + statement * 15 + "END FORALL\n"
head = "PROGRAM LONG\nINTEGER*8 X(4), Y(4), IA(4)\nREAD X, IA\nOUTPUT Y\n"
body = loop * 100
comment = "! " + "irregular " * 7 + "\n"
fill = comment * ((1_048_000 - len(head) - len(body) - 4) // len(comment))
write("long.fd", head + body + fill + "END\n")
write("stops.fd", head + body + fill + "END END\n")
write("x.csv", "1\n2\n3\n4\n")
write("ia.csv", "2\n2\n4\n1\n")

# a data file of nearly 32 MiB: as many records as the largest array has, in wide fields
count = 1_048_576
write("large.fd", f"PROGRAM LARGE\nINTEGER*8 V({count}), S(1)\nREAD V\nOUTPUT S\nFORALL I = 1, {count}\nREDUCE(ADD, S(1), V(I))\nEND FORALL\nEND\n")
write("v.csv", "".join(f"{i:>30}\n" for i in range(count)))


def mesh(points, edges, turns, name):
    folder_of = folder / name
    folder_of.mkdir(exist_ok=True)
    (folder_of / "sweep.fd").write_text(
        f"PROGRAM SWEEP\nPARAMETER (NP = {points}, NE = {edges})\n"
        "INTEGER*8 X(NP), F(NP), E1(NE), E2(NE), S(1)\nREAD X, E1, E2\nOUTPUT S\n"
        f"DO K = 1, {turns}\nFORALL I = 1, NE\n"
        "REDUCE(ADD, F(E1(I)), X(E2(I)) - X(E1(I)))\nREDUCE(ADD, F(E2(I)), X(E1(I)) - X(E2(I)))\nEND FORALL\n"
        "FORALL I = 1, NP\nX(I) = X(I) + F(I)\nF(I) = 0\nEND FORALL\nEND DO\n"
        "FORALL I = 1, NP\nREDUCE(ADD, S(1), X(I)*I)\nEND FORALL\nEND\n"
    )
    numbers = lambda f, n: "".join(f"{f(j)}\n" for j in range(1, n + 1))
    (folder_of / "x.csv").write_text(numbers(lambda j: j, points))
    (folder_of / "e1.csv").write_text(numbers(lambda j: (j - 1) % points + 1, edges))
    (folder_of / "e2.csv").write_text(numbers(lambda j: (j * j + 7) % points + 1, edges))


for points in (1_000, 25_000, 50_000, 100_000):
    for turns in (0, 1, 21):
        mesh(points, 2 * points, turns, f"sweep-{points}-{turns}")

# many executions of a loop over one element of a large array
(folder / "small.fd").write_text(
    "PROGRAM SMALL\nINTEGER*8 X(1000000), Y(1)\nOUTPUT Y\nDO K = 1, 5000\nFORALL I = 1, 1\nX(I) = K\nEND FORALL\nEND DO\nEND\n"
)

# many executions of a loop over 16 elements, each of which takes its neighbour's
write("steps.fd", "PROGRAM STEPS\nINTEGER*8 X(16), Y(16)\nOUTPUT Y\nFORALL I = 1, 16\nX(I) = I\nEND FORALL\n"
      "DO K = 1, 9999\nFORALL I = 1, 15\nY(I) = Y(I) + X(I+1)\nEND FORALL\nEND DO\nEND\n")

# executions of a loop over one element in a program of as many large arrays as it may have
arrays = "".join(f"INTEGER*8 A{k}({count})\n" for k in range(1, 65))
write("many.fd", f"PROGRAM MANY\n{arrays}DO K = 1, 50\nFORALL I = 1, 1\nA1(I) = A1(I) + K\nEND FORALL\nEND DO\nEND\n")

# 100 inspections of a loop of ten elements, beside a loop that is kept, whose ghosts are half a million on 2 nodes; with arrays of their
# own, and with those of the kept loop
half = 500_000
for name, small, extent in ("beside", "Z", 10), ("among", "X", 2 * half):
    declared = f", Z({extent})" if small == "Z" else ""
    write(f"{name}.fd", f"PROGRAM KEPT\nDECOMPOSITION D({2 * half})\nINTEGER*8 X({2 * half}), Y({2 * half}), JA(10), S(10){declared}\n"
          "ALIGN X(I), Y(I) WITH D(I)\nOUTPUT S\n"
          f"FORALL I = 1, {half}\nY(I) = X(I+{half})\nEND FORALL\n"
          "FORALL I = 1, 10\nJA(I) = I\nEND FORALL\n"
          f"DO K = 1, 100\nFORALL I = 1, 10\nREDUCE(ADD, S(I), {small}(JA(I)) + K)\nEND FORALL\n"
          "FORALL I = 1, 10\nJA(I) = 11 - JA(I)\nEND FORALL\nEND DO\n"
          f"FORALL I = 1, {half}\nY(I) = X(I+{half})\nEND FORALL\nEND\n")

# elements in space
for name, factor in ("across", 2654435761), ("down", 40503), ("deep", 97):
    write(f"{name}.csv", "".join(f"{i * factor % 1000003 * (i % 7 + 1)}\n" for i in range(count)))

# particles in bins, and half as many
for name, many in ("", count), ("half-", count // 2):
    write(f"{name}bins.csv", "".join(f"{i * 40503 % 4096 + 1}\n" for i in range(many)))
    write(f"{name}values.csv", "".join(f"{i * 2654435761 % 8191 - 4095}\n" for i in range(many)))
