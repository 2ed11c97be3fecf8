"""Makes the files of bench/files, or times whole processes on them.

    bench/files.py make SEED FOLDER
    bench/files.py time TURNS FOLDER

net.min has 65,536 bytes, the most that a load takes. ring.min has the same net without comments and extra spaces,
and an arc of 4,000,000 from each node to each other, which net.min leaves unsaid. With so many arcs between so few
nodes no least flow takes the ring, so the solvers find the same area in both.
"""
import os
import random
import re
import statistics
import sys
import time

SITES, ARCS, BYTES, RING = 64, 2_000, 65_536, 4_000_000
FULL = 1_000_000


# ---- files ----

def net_of(rng):
    """Flows of 32 sources and 32 sinks that sum to 0, and arcs as (from, to, cost)."""
    flows = [rng.randint(1, FULL) for _ in range(SITES // 2)]
    flows += [-flow for flow in rng.sample(flows, len(flows))]
    # Unlike amounts on both sides, so that no source serves one sink exactly.
    for _ in range(SITES):
        i, j = rng.sample([k for k, flow in enumerate(flows) if flow < 0], 2)
        step = rng.randint(0, min(-flows[i] - 1, FULL + flows[j]))
        flows[i], flows[j] = flows[i] + step, flows[j] - step
    rng.shuffle(flows)
    site = lambda: rng.randint(1, SITES)
    return flows, [(site(), site(), rng.randint(0, FULL)) for _ in range(ARCS)]


def lines_of(flows, arcs):
    supply = sum(flow for flow in flows if flow > 0)
    lines = ["p min %d %d" % (SITES, len(arcs))]
    lines += ["n %d %d" % node for node in enumerate(flows, start=1)]
    return lines + ["a %d %d 0 %d %d" % (start, end, supply, cost) for start, end, cost in arcs]


def padded(rng, lines):
    """As many bytes as a load takes: first spaces and comments here and there, then one comment for the rest."""
    lines = [re.sub(" ", lambda _: " " * rng.choice([1, 1, 2, 3]), line) for line in lines]
    for k in range(len(lines), 0, -100):
        lines.insert(k, "c " + "-" * 20)
    left = BYTES - sum(len(line) + 1 for line in lines)
    return "".join(line + "\n" for line in lines + ["c" + " " * (left - 2)])


def make(seed, folder):
    rng = random.Random(seed)
    flows, arcs = net_of(rng)
    ring = [(a, b, RING) for a in range(1, SITES + 1) for b in range(1, SITES + 1) if a != b]
    with open(folder + "/net.min", "w") as file:
        file.write(padded(rng, lines_of(flows, arcs)))
    with open(folder + "/ring.min", "w") as file:
        file.write("".join(line + "\n" for line in lines_of(flows, arcs + ring)))


# ---- runs ----

def commands(folder):
    """What is run, and the file and the line that its area is found in."""
    todo = {"ours": (["crates/wiring/out/wiring"], folder + "/ours.out", r"^s (\d+)$")}
    for net in ["net", "ring"]:
        lemon, glpk = "lemon, " + net, "glpk, " + net
        path, flow = "%s/%s.min" % (folder, net), "%s/%s.flow" % (folder, net)
        todo[lemon] = (["dimacs-solver", "-long", path, os.devnull],
                       "%s/%s.out" % (folder, lemon), r"^Min flow cost: (\d+)$")
        todo[glpk] = (["glpsol", "--mincost", path, "--write", flow], flow, r"^s .* (\d+)$")
    return todo


def run(command, folder, name):
    """Microseconds of one process from its start to its end."""
    into = os.open("%s/%s.out" % (folder, name), os.O_WRONLY | os.O_CREAT | os.O_TRUNC, 0o644)
    file = os.open(folder + "/net.min", os.O_RDONLY)
    actions = [(os.POSIX_SPAWN_DUP2, file, 0), (os.POSIX_SPAWN_DUP2, into, 1), (os.POSIX_SPAWN_DUP2, into, 2)]
    start = time.perf_counter_ns()
    process = os.posix_spawnp(command[0], command, os.environ, file_actions=actions)
    _, status = os.waitpid(process, 0)
    taken = time.perf_counter_ns() - start
    os.close(file)
    os.close(into)
    if status != 0:
        sys.exit("%s ended with status %d" % (name, status))
    return taken / 1_000


def area_of(path, line):
    with open(path) as file:
        return re.search(line, file.read(), re.MULTILINE).group(1)


def measure(turns, folder):
    todo = commands(folder)
    times = {name: [] for name in ["true", *todo]}
    for _ in range(turns):
        # What it takes to start and end a process that does nothing.
        times["true"].append(run(["true"], folder, "true"))
        for name, (command, _, _) in todo.items():
            times[name].append(run(command, folder, name))
    areas = {area_of(path, line) for _, path, line in todo.values()}
    if len(areas) != 1:
        sys.exit("the areas differ: " + ", ".join(areas))
    print("a file of %d bytes, area %s by all" % (os.path.getsize(folder + "/net.min"), *areas))
    for name, each in times.items():
        print("%-11s least %.0f, median %.0f microseconds" % (name, min(each), statistics.median(each)))
    for name in list(todo)[1:]:
        print("ours/%s %.2f by the least times" % (name, min(times["ours"]) / min(times[name])))


if sys.argv[1] == "make":
    make(int(sys.argv[2]), sys.argv[3])
else:
    measure(int(sys.argv[2]), sys.argv[3])
