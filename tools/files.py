#!/usr/bin/env python3
"""Compares what the program wiring plans for random files with the least costs of an outside solver.

    tools/build wiring                   builds crates/wiring/out/wiring
    tools/files.py                       600 files; exit status 1 where an answer differs
    tools/files.py --files 2000 --seed 7 --solver glpk

The solver is LEMON's dimacs-solver (Debian: apt-get install liblemon-utils) or GLPK's glpsol
(apt-get install glpk-utils). It is given the same net without comments and extra spaces, and an arc of
4,000,000 from each node to each other in place of the ring. A file whose flows do not sum to 0 has to be refused.

A net is (sites, nodes, arcs); a node is (id, flow), an arc (from, to, cost).
"""
import argparse
import collections
import os
import random
import shutil
import subprocess
import sys
import tempfile

import compare
import lengths

ROOT = os.path.dirname(os.path.dirname(os.path.abspath(__file__)))
WIRING = os.path.join(ROOT, "crates", "wiring", "out", "wiring")
RING = 4_000_000
UNBALANCED = ["c refused 6 0 0"]
SOLVERS = {"lemon": compare.lemon_cost, "glpk": compare.glpk_cost}


# ---- nets ----

def dear(rng, sites):
    """Arcs so long that the ring is often shorter than two of them."""
    count = rng.randint(0, 300)
    return RING, lengths.legs_by(rng, count, lambda r: r.randint(1, sites), lambda r: r.randint(RING // 3, RING))


def bare(_rng, _sites):
    return RING, []


KINDS = lengths.KINDS + [dear, bare]


def nodes_of(rng, sites):
    """Flows that sum to 0 on some of the sites; in one file of twelve one flow is missing, so that they do not."""
    pins = rng.choice([2, sites // 2, sites, sites, rng.randint(1, sites), rng.randint(1, sites)])
    if pins < 2 or sites < 2:
        return []
    sources, sinks = compare.counts(rng, pins)
    flows = compare.currents(rng, sources, sinks, rng.choice([pins, 1_000, compare.FULL]))
    rng.shuffle(flows)
    if rng.random() < 1 / 12:
        flows.pop()
    return list(zip(rng.sample(range(1, sites + 1), len(flows)), flows))


def net_of(rng, number):
    sites = rng.choice([1, 2, 3, 5, 8, 16, 31, 63, 64, 64, rng.randint(1, 64), rng.randint(1, 64)])
    _, arcs = KINDS[number % len(KINDS)](rng, sites)
    return sites, nodes_of(rng, sites), arcs[:300]


def is_balanced(net):
    return sum(flow for _, flow in net[1]) == 0


# ---- files ----

def supply_of(net):
    return sum(flow for _, flow in net[1] if flow > 0)


def lines_of(net, capacity):
    """The words of each line; capacity gives that of an arc."""
    sites, nodes, arcs = net
    yield ["p", "min", sites, len(arcs)]
    for node in nodes:
        yield ["n", *node]
    for start, end, cost in arcs:
        yield ["a", start, end, 0, capacity(), cost]


def noise(rng):
    """Lines that say nothing: blank ones, and comments of any bytes but the one that ends a line."""
    while rng.random() < 0.1:
        words = bytes(rng.choice([9, 13, 32, 65, 97, 0, 255, rng.randint(11, 255)]) for _ in range(rng.randint(0, 12)))
        yield rng.choice([b"", b" " * rng.randint(1, 5), b"c", b"c " + words, b"  c " + words])


def spaced(rng, words):
    """A line with more spaces than it needs."""
    gap = lambda least: " " * rng.choice([least, least, least, least + rng.randint(0, 3)])
    return (gap(0) + "".join(str(word) + gap(1) for word in words[:-1]) + str(words[-1]) + gap(0)).encode()


def file_of(rng, net):
    supply = supply_of(net)
    capacity = lambda: rng.choice([supply, supply, rng.randint(supply, 9_999_999_999)])
    lines = []
    for words in lines_of(net, capacity):
        lines += noise(rng)
        lines.append(spaced(rng, words))
    return b"\n".join([*lines, *noise(rng), b""])


def with_ring(net):
    """The net for a solver that knows of no ring."""
    sites, nodes, arcs = net
    ring = [(a, b, RING) for a in range(1, sites + 1) for b in range(1, sites + 1) if a != b]
    return sites, nodes, arcs + ring


def plain_text(net):
    supply = supply_of(net)
    return "".join(" ".join(map(str, words)) + "\n" for words in lines_of(net, lambda: supply))


# ---- answers ----

def answer_of(file):
    done = subprocess.run([WIRING], input=file, capture_output=True, check=True)
    return done.stdout.decode().split("\n")[:-1]


def wires_of(lines):
    """(from, to, current) of each line f, or None where a line is of another form."""
    words = [line.split(" ") for line in lines]
    if not all(len(w) == 4 and w[0] == "f" and all(n.isdecimal() for n in w[1:]) for w in words):
        return None
    return [tuple(map(int, w[1:])) for w in words]


def fault_of_wires(net, wires, area):
    """What is wrong with the wires, or None: whom they serve, their order and what they cost."""
    sites, nodes, arcs = net
    pairs = [wire[:2] for wire in wires]
    if pairs != sorted(set(pairs)):
        return "the wires are not in order"
    if any(current < 1 for _, _, current in wires):
        return "a wire carries nothing"
    due, served = dict(nodes), collections.Counter()
    for start, end, current in wires:
        if due.get(start, 0) < 0 or due.get(end, 0) > 0:
            return "a wire leads from a sink or to a source"
        served[start] += current
        served[end] -= current
    if served != collections.Counter(due):
        return "the wires do not carry the flows"
    table = lengths.table_of(sites, RING, arcs)
    if sum(current * table[start - 1][end - 1] for start, end, current in wires) != area:
        return "the wires have another area"
    return None


def fault_of(net, lines, cost):
    """What is wrong with the answer, or None."""
    if not is_balanced(net):
        return None if lines == UNBALANCED else "%s for flows that do not sum to 0" % lines[:1]
    if lines[:1] != ["s %d" % cost]:
        return "%s by wiring, %d by the solver" % (lines[:1], cost)
    wires = wires_of(lines[1:])
    return "a line is no wire" if wires is None else fault_of_wires(net, wires, cost)


# ---- runs ----

def default_solver():
    return "lemon" if shutil.which("dimacs-solver") else "glpk"


def costs_of(nets, solver):
    """Nets without flows cost nothing, and the others are not for a solver."""
    with tempfile.TemporaryDirectory() as folder:
        return [SOLVERS[solver](plain_text(with_ring(net)), folder) if net[1] and is_balanced(net) else 0
                for net in nets]


def main():
    ask = argparse.ArgumentParser()
    ask.add_argument("--files", type=int, default=600)
    ask.add_argument("--seed", type=int, default=1)
    ask.add_argument("--solver", choices=sorted(SOLVERS), default=default_solver())
    asked = ask.parse_args()
    rng = random.Random(asked.seed)
    nets = [net_of(rng, number) for number in range(asked.files)]
    files = [file_of(rng, net) for net in nets]
    differences = 0
    for number, (net, file, cost) in enumerate(zip(nets, files, costs_of(nets, asked.solver))):
        fault = fault_of(net, answer_of(file), cost)
        if fault:
            differences += 1
            print("file %d, %s: %s" % (number, KINDS[number % len(KINDS)].__name__, fault))
    print("%d files, %d differences" % (len(files), differences))
    print("solver %s, seed %d, sites %d to %d, nodes %d to %d, arcs %d to %d, %d unbalanced, bytes %d to %d" % (
        asked.solver, asked.seed,
        *(f(net[0] for net in nets) for f in (min, max)),
        *(f(len(net[1]) for net in nets) for f in (min, max)),
        *(f(len(net[2]) for net in nets) for f in (min, max)),
        sum(not is_balanced(net) for net in nets),
        *(f(map(len, files)) for f in (min, max))))
    sys.exit(1 if differences else 0)


if __name__ == "__main__":
    main()
