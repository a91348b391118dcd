#!/usr/bin/env python3
"""Draws docs/speed.svg from the rows of the last bench/run.py: seconds a step of the sweep against nodes, and against size."""
import os
import platform

HERE = os.path.dirname(os.path.abspath(__file__))
WIDTH, HEIGHT, LEFT, TOP, ACROSS, DOWN = 900, 420, 70, 60, 340, 260
COLOURS = {"Fortran": "#555555", "--plain": "#1f77b4", "chaosplay": "#d62728", "chaosrun": "#2ca02c"}


def rows():
    """Points, name, and seconds a step of each sweep."""
    with open(f"{HERE}/out/rows.tsv", encoding="utf-8") as told:
        found = [line.rstrip("\n").split("\t") for line in told]
    return [(int(it[2]), it[1], float(it[3])) for it in found if it[0] == "sweep"]


def processors():
    name = platform.processor() or platform.machine()
    try:
        with open("/proc/cpuinfo", encoding="utf-8") as told:
            name = next((line.split(":")[1].strip() for line in told if line.startswith("model name")), name)
    except OSError:
        pass
    return f"{os.cpu_count()} processors, {name}"


def text(x, y, said, anchor="middle", size=12):
    return f'<text x="{x:.0f}" y="{y:.0f}" text-anchor="{anchor}" font-size="{size}">{said}</text>'


def chart(left, title, ticks, series, most):
    """One chart: places along the bottom with their words, and for each name its seconds at those places."""
    at = lambda place: left + ACROSS * (place + 0.5) / len(ticks)
    high = lambda seconds: TOP + DOWN - DOWN * seconds / most
    out = [f'<path d="M{left} {TOP}V{TOP + DOWN}H{left + ACROSS}" fill="none" stroke="#000"/>', text(left + ACROSS / 2, TOP - 14, title)]
    out += [text(at(place), TOP + DOWN + 18, word) for place, word in enumerate(ticks)]
    for part in range(5):
        out.append(text(left - 6, high(most * part / 4) + 4, f"{1000 * most * part / 4:.0f}", "end"))
    for name, points in series.items():
        colour = COLOURS[name]
        path = " ".join(f"{at(place):.1f},{high(seconds):.1f}" for place, seconds in points)
        out.append(f'<polyline points="{path}" fill="none" stroke="{colour}" stroke-width="2"/>')
        out += [f'<circle cx="{at(place):.1f}" cy="{high(seconds):.1f}" r="3" fill="{colour}"/>' for place, seconds in points]
    return out


def main():
    found = rows()
    sizes = sorted({points for points, _, _ in found})
    nodes = sorted({int(name.split()[-1]) for _, name, _ in found if "--nodes" in name})
    told = {(points, name): seconds for points, name, seconds in found}
    most = max(told.values()) * 1.1
    kinds = {"Fortran": "Fortran, sequential", "--plain": "chaosplay --plain", "chaosplay": "chaosplay --nodes 4", "chaosrun": "chaosrun --nodes 4"}
    by_size = {
        kind: [(place, told[size, name]) for place, size in enumerate(sizes) if (size, name) in told] for kind, name in kinds.items()
    }
    by_nodes = {
        kind: [(place, told[sizes[-1], name.format(it)]) for place, it in enumerate(nodes) if (sizes[-1], name.format(it)) in told]
        for kind, name in (("Fortran", "Fortran, sequential"), ("--plain", "chaosplay --plain"), ("chaosplay", "chaosplay --nodes {}"), ("chaosrun", "chaosrun --nodes {}"))
    }
    out = [f'<svg xmlns="http://www.w3.org/2000/svg" viewBox="0 0 {WIDTH} {HEIGHT}" font-family="sans-serif">', '<rect width="100%" height="100%" fill="#fff"/>']
    out.append(text(WIDTH / 2, 22, f"Milliseconds a step of the mesh sweep (two edges a point); {processors()}", size=14))
    out += chart(LEFT, f"against nodes, {sizes[-1]:,} points", nodes, by_nodes, most)
    out += chart(LEFT + ACROSS + 90, "against points, 4 nodes", [f"{it:,}" for it in sizes], by_size, most)
    words = {"Fortran": "Fortran, sequential", "--plain": "one machine (--plain)", "chaosplay": "nodes in turns", "chaosrun": "nodes by threads"}
    for place, (kind, said) in enumerate(words.items()):
        x = LEFT + place * 200
        out.append(f'<rect x="{x}" y="{HEIGHT - 40}" width="14" height="14" fill="{COLOURS[kind]}"/>' + text(x + 20, HEIGHT - 28, said, "start"))
    with open(f"{HERE}/../docs/speed.svg", "w", encoding="utf-8") as to:
        to.write("\n".join([*out, "</svg>"]) + "\n")
    print("docs/speed.svg is drawn")


main()
