#!/usr/bin/env python3
"""Compares the lengths that the program lengths prints for random maps with those of Floyd and Warshall's method.

    tools/build lengths                  builds crates/lengths/out/lengths
    tools/lengths.py                     200 maps; exit status 1 where a length differs
    tools/lengths.py --maps 1000 --seed 7
    tools/lengths.py --write-gate        writes crates/lengths/stdin and stdout anew, the lengths by this script alone

A map is (sites, ring, legs); a leg is (from, to, length). Both programs are told the legs in the same order; this one
looks at all of them at once.
"""
import argparse
import os
import random
import subprocess
import sys

ROOT = os.path.dirname(os.path.dirname(os.path.abspath(__file__)))
LENGTHS = os.path.join(ROOT, "crates", "lengths", "out", "lengths")
FULL = 4_000_000


# ---- maps ----

def legs_by(rng, count, end, size):
    return [(end(rng), end(rng), size(rng)) for _ in range(count)]


def scattered(rng, sites):
    """Any legs of any length: self legs and repeated pairs come along."""
    most = rng.choice([1, 10, 1_000, FULL])
    count = rng.randint(0, 400)
    return rng.randint(1, FULL), legs_by(rng, count, lambda r: r.randint(1, sites), lambda r: r.randint(0, most))


def zeros(rng, sites):
    """Most legs are 0 long."""
    count = rng.randint(0, 200)
    return rng.randint(1, 1_000), legs_by(rng, count, lambda r: r.randint(1, sites), lambda r: r.choice([0, 0, 0, 1, 7]))


def selves(rng, sites):
    """Half of the legs lead from a site to itself."""
    legs = scattered(rng, sites)[1]
    return rng.randint(1, FULL), [(a, a, size) if rng.random() < 0.5 else (a, b, size) for a, b, size in legs]


def repeated(rng, sites):
    """Few pairs, each with many legs."""
    pairs = [(rng.randint(1, sites), rng.randint(1, sites)) for _ in range(rng.randint(1, 20))]
    return rng.randint(1, FULL), [(*rng.choice(pairs), rng.randint(0, 100_000)) for _ in range(rng.randint(0, 300))]


def chain(rng, sites):
    """One long way, its legs in any order."""
    order = rng.sample(range(1, sites + 1), sites)
    legs = [(a, b, rng.randint(0, 50_000)) for a, b in zip(order, order[1:])]
    rng.shuffle(legs)
    return rng.choice([100_000, FULL]), legs


def parts(rng, sites):
    """Two halves that no leg joins."""
    half = sites // 2
    legs = scattered(rng, sites)[1]
    return rng.randint(1, FULL), [leg for leg in legs if (leg[0] <= half) == (leg[1] <= half)]


def short_ring(rng, sites):
    """Most legs are longer than the ring."""
    count = rng.randint(0, 300)
    return rng.randint(1, 100), legs_by(rng, count, lambda r: r.randint(1, sites), lambda r: r.randint(0, 1_000))


def thick(rng, sites):
    """A leg for every pair."""
    legs = [(a, b, rng.randint(0, 10_000)) for a in range(1, sites + 1) for b in range(1, sites + 1)]
    rng.shuffle(legs)
    return rng.randint(1, 20_000), legs[:1_000]


KINDS = [scattered, zeros, selves, repeated, chain, parts, short_ring, thick]


def map_of(rng, number):
    sites = rng.choice([1, 2, 3, 5, 8, 16, 31, 63, 64, 64, rng.randint(1, 64)])
    return (sites, *KINDS[number % len(KINDS)](rng, sites))


def text_of(maps):
    lines = []
    for sites, ring, legs in maps:
        lines.append("%d %d %d" % (sites, ring, len(legs)))
        lines += ["%d %d %d" % leg for leg in legs]
    return "\n".join(lines) + "\n"


# ---- lengths ----

def table_of(sites, ring, legs):
    """Shortest sums by Floyd and Warshall's method without the ring, which is put in at the end."""
    never = float("inf")
    table = [[0 if a == b else never for b in range(sites)] for a in range(sites)]
    for a, b, size in legs:
        table[a - 1][b - 1] = min(table[a - 1][b - 1], size)
    for k in range(sites):
        on = table[k]
        for row in table:
            there = row[k]
            if there < never:
                row[:] = [min(now, there + more) for now, more in zip(row, on)]
    return [[0 if a == b else min(ring, length) for b, length in enumerate(row)] for a, row in enumerate(table)]


def lines_of(maps):
    return [" ".join(map(str, row)) for one in maps for row in table_of(*one)]


# ---- runs ----

def gate_maps():
    rng = random.Random(1)
    maps = [
        (1, 1, []),
        (1, 9, [(1, 1, 0), (1, 1, 5)]),
        (2, 50, [(1, 2, 7)]),
        (3, 100, [(1, 2, 0), (2, 3, 0), (3, 1, 0)]),
        (3, 100, [(1, 2, 9), (1, 2, 4), (1, 2, 6), (2, 2, 0), (2, 3, 5)]),
        (4, 1_000, [(1, 2, 3), (3, 4, 5)]),
        (4, 10, [(1, 2, 11), (2, 3, 6), (3, 4, 6), (1, 3, 10)]),
        (5, FULL, [(4, 5, FULL), (3, 4, 1), (2, 3, FULL), (1, 2, 0)]),
    ]
    return maps + [(sites, *kind(rng, sites)) for kind, sites in [(chain, 9), (zeros, 6), (short_ring, 7), (parts, 8), (scattered, 64)]]


def write_gate():
    """Small maps and one of 64 sites, a leg that is refused, a begin that is refused, and a word that is no number."""
    maps = gate_maps()
    refused = [(2, 8, [(1, 2, 3), (2, 3, 1), (2, 1, FULL + 1)]), (65, 8, [(1, 2, 3)]), (2, 0, [])]
    kept = [(2, 8, [(1, 2, 3)])]
    folder = os.path.join(ROOT, "crates", "lengths")
    with open(os.path.join(folder, "stdin"), "w") as file:
        file.write(text_of(maps + refused) + "2 8 1\n1 two 3\n")
    with open(os.path.join(folder, "stdout"), "w") as file:
        file.write("\n".join(lines_of(maps + kept) + ["malformed"]) + "\n")
    print("%d maps" % len(maps))


def main():
    ask = argparse.ArgumentParser()
    ask.add_argument("--maps", type=int, default=200)
    ask.add_argument("--seed", type=int, default=1)
    ask.add_argument("--write-gate", action="store_true")
    asked = ask.parse_args()
    if asked.write_gate:
        return write_gate()
    rng = random.Random(asked.seed)
    maps = [map_of(rng, number) for number in range(asked.maps)]
    done = subprocess.run([LENGTHS], input=text_of(maps), capture_output=True, text=True, check=True)
    ours = iter(done.stdout.split("\n")[:-1])
    differences = pairs = 0
    for number, one in enumerate(maps):
        for row in table_of(*one):
            theirs = list(map(str, row))
            line = next(ours, "").split(" ")
            wrong = sum(a != b for a, b in zip(line, theirs)) + abs(len(line) - len(theirs))
            pairs += len(theirs)
            differences += wrong
            if wrong:
                print("map %d, %s: %d lengths of a line differ" % (number, KINDS[number % len(KINDS)].__name__, wrong))
    differences += len(list(ours))
    print("%d maps, %d legs, %d lengths, %d differences" % (len(maps), sum(len(m[2]) for m in maps), pairs, differences))
    print("seed %d, sites %d to %d" % (asked.seed, min(m[0] for m in maps), max(m[0] for m in maps)))
    sys.exit(1 if differences else 0)


if __name__ == "__main__":
    main()
