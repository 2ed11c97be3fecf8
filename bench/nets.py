"""Prints random nets of 32 sources and 32 sinks on the plane: bench/nets.py NETS SEED."""
import random
import sys


def amounts(rng, total):
    """32 amounts of at most 1,000,000 with that total."""
    parts = [rng.randint(1, 1_000_000) for _ in range(32)]
    while sum(parts) != total:
        i = rng.randrange(32)
        parts[i] = max(1, min(1_000_000, parts[i] + total - sum(parts)))
    return parts


def main():
    nets, rng = int(sys.argv[1]), random.Random(int(sys.argv[2]))
    for _ in range(nets):
        sources = [rng.randint(1, 1_000_000) for _ in range(32)]
        sinks = [-a for a in amounts(rng, sum(sources))]
        pins = sources + sinks
        rng.shuffle(pins)
        print(len(pins))
        for current in pins:
            print(rng.randint(0, 65_535), rng.randint(0, 65_535), current)


main()
