"""Prints maps of 64 sites and 1,000 random legs, or prints what bench/legs collected.

    bench/legs.py make MAPS SEED
    bench/legs.py ratio FOLDER
"""
import random
import re
import sys


def make(maps, seed):
    rng = random.Random(seed)
    for _ in range(maps):
        print(64, 4_000_000, 1_000)
        for _ in range(1_000):
            print(rng.randint(1, 64), rng.randint(1, 64), rng.randint(0, 1_000_000))


def per_leg(folder, name):
    """Microseconds per leg in each turn, least first."""
    with open("%s/%s.time" % (folder, name)) as file:
        pairs = re.findall(r"(\d+) microseconds, (\d+) legs", file.read())
    return sorted(int(micros) / int(legs) for micros, legs in pairs)


def ratio(folder):
    with open(folder + "/ours.lengths") as ours, open(folder + "/rust.lengths") as rust:
        if ours.read() != rust.read():
            sys.exit("the lengths differ")
    times = {name: per_leg(folder, name) for name in ["ours", "rust"]}
    for name, each in times.items():
        print("%-5s %s microseconds per leg" % (name, ", ".join("%.2f" % t for t in each)))
    print("ours/rust %.2f by the least times" % (times["ours"][0] / times["rust"][0]))


if sys.argv[1] == "make":
    make(int(sys.argv[2]), int(sys.argv[3]))
else:
    ratio(sys.argv[2])
