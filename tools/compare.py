#!/usr/bin/env python3
"""Compares the areas that the program batch plans with those of an outside solver, on random nets of many kinds.

    tools/build batch                    builds crates/batch/out/batch
    tools/compare.py                     600 nets; exit status 1 where an area differs
    tools/compare.py --nets 2000 --seed 7 --solver networkx
    tools/compare.py --write-gate        writes crates/batch/stdin and stdout anew, the areas by the solver alone

The solver is LEMON's dimacs-solver (Debian: apt-get install liblemon-utils) or GLPK's glpsol
(apt-get install glpk-utils), both on files in the DIMACS format, or networkx (pip install networkx).
The first that is installed is taken. A wire through other sites never helps, so each net is put to the solver
as a least-cost flow from its sources straight to its sinks.
"""
import argparse
import os
import random
import re
import shutil
import subprocess
import sys
import tempfile

ROOT = os.path.dirname(os.path.dirname(os.path.abspath(__file__)))
BATCH = os.path.join(ROOT, "crates", "batch", "out", "batch")
FULL = 1_000_000
EDGE = 65_535


# ---- nets: lists of (x, y, current) ----

def parts(rng, total, count, most):
    """Splits a total into count parts of 1 to most."""
    result = []
    for left in range(count - 1, -1, -1):
        low = max(1, total - most * left)
        high = min(most, total - left)
        even = total // (left + 1)
        if rng.random() < 0.5:
            high = max(low, min(high, 2 * even))
        part = rng.randint(low, high)
        result.append(part)
        total -= part
    rng.shuffle(result)
    return result


def currents(rng, sources, sinks, most):
    """Positive and negative currents that sum to 0."""
    total = rng.randint(max(sources, sinks), most * min(sources, sinks))
    return parts(rng, total, sources, most) + [-p for p in parts(rng, total, sinks, most)]


def counts(rng, pins):
    sources = rng.choice([pins // 2, rng.randint(1, pins - 1)])
    return sources, pins - sources


def with_points(rng, amounts, point):
    pins = [(*point(amount), amount) for amount in amounts]
    rng.shuffle(pins)
    return pins


def anywhere(rng):
    return rng.randint(0, EDGE), rng.randint(0, EDGE)


def clip(v):
    return max(0, min(EDGE, v))


def scattered(rng, pins):
    return with_points(rng, currents(rng, *counts(rng, pins), FULL), lambda _: anywhere(rng))


def clustered(rng, pins):
    centres = [anywhere(rng) for _ in range(rng.randint(1, 5))]

    def point(_):
        x, y = rng.choice(centres)
        return clip(x + rng.randint(-50, 50)), clip(y + rng.randint(-50, 50))

    return with_points(rng, currents(rng, *counts(rng, pins), FULL), point)


def collinear(rng, pins):
    level = rng.randint(0, EDGE)
    way = rng.choice(["row", "column", "diagonal"])

    def point(_):
        v = rng.randint(0, EDGE)
        return {"row": (v, level), "column": (level, v), "diagonal": (v, v)}[way]

    return with_points(rng, currents(rng, *counts(rng, pins), FULL), point)


def equal_lengths(rng, pins):
    """Sources in one point, sinks all as far from it."""
    far = rng.randint(0, 32_000)

    def point(amount):
        if amount > 0:
            return 32_500, 32_500
        part = rng.randint(0, far)
        return 32_500 + rng.choice([-1, 1]) * part, 32_500 + rng.choice([-1, 1]) * (far - part)

    return with_points(rng, currents(rng, *counts(rng, pins), FULL), point)


def one_site(rng, pins):
    site = anywhere(rng)
    return with_points(rng, currents(rng, *counts(rng, pins), FULL), lambda _: site)


def full_currents(rng, pins):
    half = pins // 2
    return with_points(rng, [FULL] * half + [-FULL] * half, lambda _: anywhere(rng))


def unit_currents(rng, pins):
    half = pins // 2
    return with_points(rng, [1] * half + [-1] * half, lambda _: anywhere(rng))


def few_sources(rng, pins):
    few = rng.randint(1, min(3, pins - 1))
    sources, sinks = (few, pins - few) if rng.random() < 0.5 else (pins - few, few)
    return with_points(rng, currents(rng, sources, sinks, FULL), lambda _: anywhere(rng))


def small_grid(rng, pins):
    """Many equal lengths, and terminals that share sites."""
    side = rng.randint(1, 6)
    point = lambda _: (rng.randint(0, side), rng.randint(0, side))
    return with_points(rng, currents(rng, *counts(rng, pins), rng.choice([64, 1_000, FULL])), point)


def corners(rng, pins):
    point = lambda _: (rng.choice([0, 1, EDGE]), rng.choice([0, EDGE - 1, EDGE]))
    return with_points(rng, currents(rng, *counts(rng, pins), FULL), point)


def doubling(rng, pins):
    """Amounts 1, 2, 4 and on, on both sides."""
    half = min(pins // 2, 20)
    amounts = [2 ** k for k in range(half)]
    return with_points(rng, amounts + [-a for a in amounts], lambda _: anywhere(rng))


KINDS = [scattered, clustered, collinear, equal_lengths, one_site, full_currents, unit_currents,
         few_sources, small_grid, corners, doubling]


def net_of(rng, number):
    kind = KINDS[number % len(KINDS)]
    pins = rng.choice([0, 2, 3, 5, 10, 20, 33, 48, 63, 64, 64, rng.randint(2, 64)])
    return kind(rng, pins) if pins >= 2 else []


def text_of(nets):
    lines = []
    for net in nets:
        lines.append(str(len(net)))
        lines += ["%d %d %d" % pin for pin in net]
    return "\n".join(lines) + "\n"


# ---- outside solvers ----

def links_of(net):
    """Sources, sinks, and (source, sink, cost, capacity) by node number from 1."""
    nodes = list(enumerate(net, start=1))
    sources = [n for n in nodes if n[1][2] > 0]
    sinks = [n for n in nodes if n[1][2] < 0]
    return [(i, j, abs(a[0] - b[0]) + abs(a[1] - b[1]), min(a[2], -b[2]))
            for i, a in sources for j, b in sinks]


def dimacs(net):
    links = links_of(net)
    lines = ["p min %d %d" % (len(net), len(links))]
    lines += ["n %d %d" % (i, pin[2]) for i, pin in enumerate(net, start=1)]
    lines += ["a %d %d 0 %d %d" % (i, j, room, cost) for i, j, cost, room in links]
    return "\n".join(lines) + "\n"


def lemon_cost(text, folder):
    """The least cost of a net in the DIMACS format, by LEMON."""
    path = os.path.join(folder, "net.min")
    with open(path, "w") as file:
        file.write(text)
    done = subprocess.run(["dimacs-solver", "-long", path, os.devnull],
                          capture_output=True, text=True)
    found = re.search(r"Min flow cost: (\d+)", done.stdout + done.stderr)
    if not found:
        raise RuntimeError("dimacs-solver: " + done.stdout + done.stderr)
    return int(found.group(1))


def glpk_cost(text, folder):
    """The same by GLPK. The solution's file has the cost with 15 digits, and no area has more."""
    path, out = os.path.join(folder, "net.min"), os.path.join(folder, "net.sol")
    with open(path, "w") as file:
        file.write(text)
    subprocess.run(["glpsol", "--mincost", path, "--write", out], capture_output=True, text=True, check=True)
    with open(out) as file:
        return next(round(float(words[-1])) for words in map(str.split, file) if words[0] == "s")


def by_lemon(net, folder):
    return lemon_cost(dimacs(net), folder)


def by_glpk(net, folder):
    return glpk_cost(dimacs(net), folder)


def by_networkx(net, _folder):
    import networkx
    graph = networkx.DiGraph()
    for i, pin in enumerate(net, start=1):
        graph.add_node(i, demand=-pin[2])
    for i, j, cost, _ in links_of(net):
        graph.add_edge(i, j, weight=cost)
    return networkx.network_simplex(graph)[0]


SOLVERS = {"lemon": by_lemon, "glpk": by_glpk, "networkx": by_networkx}


def default_solver():
    if shutil.which("dimacs-solver"):
        return "lemon"
    return "glpk" if shutil.which("glpsol") else "networkx"


def outside_areas(nets, solver):
    with tempfile.TemporaryDirectory() as folder:
        return [SOLVERS[solver](net, folder) if net else 0 for net in nets]


# ---- runs ----

def own_areas(nets):
    done = subprocess.run([BATCH], input=text_of(nets), capture_output=True, text=True, check=True)
    return done.stdout.split("\n")[:-1]


def write_gate(solver):
    """About 40 nets with the solver's areas, two that are refused, and a word that is no number."""
    rng = random.Random(1)
    nets = [[]] + [kind(rng, pins) for kind in KINDS for pins in (2, 7, 24)]
    nets += [kind(rng, 64) for kind in (scattered, clustered, full_currents, small_grid, corners)]
    lines = [str(area) for area in outside_areas(nets, solver)]
    refused = [[(1, 1, 5), (2, 2, -4)], [(1, 1, 5), (2, 2, -5), (3, 3, 0)]]
    folder = os.path.join(ROOT, "crates", "batch")
    with open(os.path.join(folder, "stdin"), "w") as file:
        file.write(text_of(nets + refused) + "1\n65536 0 1\n")
    with open(os.path.join(folder, "stdout"), "w") as file:
        file.write("\n".join(lines + ["refused 6", "refused 4", "malformed"]) + "\n")
    print("%d nets by %s" % (len(nets), solver))


def main():
    ask = argparse.ArgumentParser()
    ask.add_argument("--nets", type=int, default=600)
    ask.add_argument("--seed", type=int, default=1)
    ask.add_argument("--solver", choices=sorted(SOLVERS), default=default_solver())
    ask.add_argument("--write-gate", action="store_true")
    asked = ask.parse_args()
    if asked.write_gate:
        return write_gate(asked.solver)
    rng = random.Random(asked.seed)
    nets = [net_of(rng, number) for number in range(asked.nets)]
    ours = own_areas(nets)
    theirs = outside_areas(nets, asked.solver)
    differences = abs(len(ours) - len(theirs))
    for number, (a, b) in enumerate(zip(ours, theirs)):
        if a != str(b):
            differences += 1
            print("net %d, %s: %s by batch, %d by %s" % (number, KINDS[number % len(KINDS)].__name__, a, b, asked.solver))
    print("%d nets, %d differences" % (len(nets), differences))
    print("solver %s, seed %d, pins %d to %d" % (asked.solver, asked.seed, min(map(len, nets)), max(map(len, nets))))
    sys.exit(1 if differences else 0)


if __name__ == "__main__":
    main()
