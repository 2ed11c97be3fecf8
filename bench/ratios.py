"""Compares the areas and prints the times and ratios that bench/run collected: bench/ratios.py FOLDER."""
import os
import re
import sys


def areas(folder, name):
    with open(os.path.join(folder, name + ".areas")) as file:
        return [int(line) for line in file]


def per_plan(folder, name):
    """Microseconds per plan in each turn, least first."""
    with open(os.path.join(folder, name + ".time")) as file:
        pairs = re.findall(r"(\d+) microseconds, (\d+) plans", file.read())
    return sorted(int(micros) / int(plans) for micros, plans in pairs)


def main():
    folder = sys.argv[1]
    names = ["ours", "rust", "lemon"]
    listed = [areas(folder, name) for name in names]
    if listed[0] != listed[1] or listed[0] != listed[2]:
        sys.exit("the areas differ")
    print("%d nets, total area %d, the same by all three" % (len(listed[0]), sum(listed[0])))
    times = {name: per_plan(folder, name) for name in names}
    for name in names:
        print("%-5s %s microseconds per plan" % (name, ", ".join("%.1f" % t for t in times[name])))
    for name in names[1:]:
        print("ours/%s %.2f by the least times" % (name, times["ours"][0] / times[name][0]))


main()
