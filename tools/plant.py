#!/usr/bin/env python3
"""Plants bugs, one at a time, and tells what catches each: the proof, a test, or nothing.

    tools/plant.py                       all crates
    tools/plant.py sheet audit           some crates

The bugs of a crate are its must-fail edits and those of tools/bugs/CRATE.txt (kind, file, old and new text). Each is
planted in a copy of the repository, in which the crate is checked (`rt check`); where it is still proved, the tests in
crates/trials are run. A run that proves a crate again takes 5 to 60 seconds, so all of them take about an hour.
Exit status 1 where a bug survived, or could not be tried.
"""
import glob
import os
import shutil
import subprocess
import sys
import tempfile

ROOT = os.path.dirname(os.path.dirname(os.path.abspath(__file__)))
CRATES = ["ruler", "wires", "transport", "audit", "planner", "sheet", "reader", "dimacs", "listing"]


def fields(block):
    return dict(line.split(": ", 1) for line in block.split("\n") if ": " in line)


def bugs_of(crate):
    """(kind, file, old, new) of each bug."""
    found = []
    for path in sorted(glob.glob(os.path.join(ROOT, "crates", crate, "must-fail", "*.edit"))):
        with open(path) as file:
            edit = fields(file.read())
        kind = os.path.basename(path)[:-5].replace("_", " ")
        found.append((kind, edit["file"], edit["old"], edit["new"]))
    path = os.path.join(ROOT, "tools", "bugs", crate + ".txt")
    if os.path.exists(path):
        with open(path) as file:
            edits = [fields(block) for block in file.read().split("\n\n")]
        found += [(e["kind"], e["file"], e["old"], e["new"]) for e in edits if e]
    return found


def told(folder, crate, command):
    done = subprocess.run(["rt", command], cwd=os.path.join(folder, "crates", crate), capture_output=True, text=True)
    return done.stdout + done.stderr


def caught_by(folder, crate, bug):
    _, name, old, new = bug
    path = os.path.join(folder, "crates", crate, name)
    with open(path) as file:
        text = file.read()
    if text.count(old) != 1:
        return "not planted"
    with open(path, "w") as file:
        file.write(text.replace(old, new))
    try:
        checked = told(folder, crate, "check")
        if "logic=not-proved" in checked:
            return "proof"
        if "logic=proved" not in checked:
            return "not checked"
        return "nothing" if " 0 failed" in told(folder, "trials", "test") else "test"
    finally:
        with open(path, "w") as file:
            file.write(text)


def main():
    crates = sys.argv[1:] or CRATES
    missed = 0
    with tempfile.TemporaryDirectory() as scratch:
        folder = os.path.join(scratch, "copy")
        shutil.copytree(ROOT, folder, symlinks=True)
        for crate in crates:
            counts = {}
            for bug in bugs_of(crate):
                by = caught_by(folder, crate, bug)
                counts[by] = counts.get(by, 0) + 1
                print("%s: %s: %s" % (crate, bug[0], by), flush=True)
            print("%s: %s" % (crate, ", ".join("%d by %s" % (n, by) for by, n in sorted(counts.items()))), flush=True)
            missed += sum(counts.get(by, 0) for by in ["nothing", "not planted", "not checked"])
    sys.exit(1 if missed else 0)


if __name__ == "__main__":
    main()
