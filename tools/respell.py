#!/usr/bin/env python3
"""Spells the definitions and lemmas of specs/ and proofs/ in snake case, wherever contracts and proofs name them.

Run once, at the top, right after the toolchain's port script: it has spelled alike only the names that a library shares.
Names that a library gives, and goals and steps that the check names after the code, keep their spelling.

usage: tools/respell.py [--dry]
"""
import collections
import glob
import re
import sys

# Names that would fall together with another in the same file.
APART = {"sink_mark": "mark_of_sink", "source_mark": "mark_of_source"}

WORD = re.compile(r"[^\W\d][\w'′]*(?:-[\w'′]+)*-?")
SIGNED = re.compile(r"^(\s*)(?:abbrev |unfoldable |package )*(?:pub )?(?:record |data |ruleset )?([^\s:(){}=.,]+)\s*(?:[({].*?[)}]\s*)*:(?!=)\s*(\S*)")
USED = re.compile(r"use\s+(?P<path>[\w.'·-]+?)(?:\.\{(?P<names>[^}]*)\}|\s+as\s+(?P<alias>\S+))?\s*;?$", re.M)


def snake(name):
    """The name in snake case; a type's name, and a name that begins with one, stays."""
    if name[0].isupper():
        return name
    name = name.replace("′", "'")
    name = re.sub(r"(?<=[a-z0-9])([A-Z])", lambda m: "_" + m.group(1).lower(), name)
    return APART.get(name.replace("-", "_"), name.replace("-", "_"))


def is_shared(path):
    """Whether a file holds definitions and lemmas, and not one function's answers."""
    return re.search(r"/(specs|proofs)/\w+\.antt$", path) is not None


def declared(path, text):
    """The names that a file declares, but for those of goals."""
    for line in text.splitlines():
        found = SIGNED.match(line)
        if found and not found.group(3).startswith("goal.") and WORD.fullmatch(found.group(2)):
            yield found.group(2)
    for used in USED.finditer(text):
        if used.group("alias"):
            yield used.group("alias")


def library_names(text, crates):
    """The names that a file has from a library, under the spelling that it uses."""
    names = set()
    for used in USED.finditer(text):
        parts = used.group("path").split(".")
        own = parts[0] == "Rattle" and len(parts) > 1 and parts[1] in crates
        if not own and used.group("names"):
            for item in used.group("names").split(","):
                names.add(item.split(" as ")[-1].strip())
    return names


def turned(path, text, own, library, crates):
    """The text with the repository's own names in snake case, and what each was."""
    was = collections.defaultdict(set)
    # In a file of its own a dash stands in a library's names and in the repository's alone, variables among them.
    every = is_shared(path)

    def spell(found):
        name = found.group(0)
        if name in library or not (name in own or every and "-" in name):
            return name
        if snake(name) == name:
            return name
        was[snake(name)].add(name)
        return snake(name)

    lines = []
    for line in text.split("\n"):
        mark = "//" if path.endswith(".rt") else "--"
        at = re.search(r"(^|\s)" + mark, line)
        code, comment = (line[:at.start()], line[at.start():]) if at else (line, "")
        if path.endswith(".rt") and not re.search(r"ghost|requires|ensures|≡|→", code):
            lines.append(line)
            continue
        used = re.match(r"\s*(?:pub )?(?:ghost )?use\s+[\w.'·-]+", code)
        head = used.end() if used and not re.match(r"\s*(?:pub )?(?:ghost )?use\s+Rattle\.(?:%s)\." % "|".join(crates), code) else 0
        lines.append(code[:head] + WORD.sub(spell, code[head:]) + comment)
    return "\n".join(lines), was


def main():
    crates = {path.split("/")[1] for path in glob.glob("crates/*/src")}
    paths = sorted(p for kind in ["antt", "rt"] for p in glob.glob("crates/**/*." + kind, recursive=True) if "/out/" not in p)
    texts = {path: open(path, encoding="utf-8").read() for path in paths}
    own = {name for path in paths if path.endswith(".antt") for name in declared(path, texts[path]) if snake(name) != name}
    for path in paths:
        library = library_names(texts[path], crates)
        text, was = turned(path, texts[path], own, library, crates)
        there = set(WORD.findall(re.sub(r"--.*", "", texts[path])))
        for name, spellings in sorted(was.items()):
            if len(spellings) > 1 or name in there:
                print("falls together: %s: %s %s" % (path, name, " ".join(sorted(spellings))))
        if text != texts[path] and "--dry" not in sys.argv:
            with open(path, "w", encoding="utf-8") as file:
                file.write(text)


main()
