#!/usr/bin/env python3
"""Brings this repository's own words to today's spelling: definitions, lemmas, fields and constructors in snake case, modules in camel
case. Run once, after /opt/rattle/port/port.py and before any edit by hand:   python3 tools/respell.py [FOLDER]

A name counts as the repository's own if a file of specs/ or a lemma file of proofs/ has it and does not import it from a library.
Functions, fields and variables of src/ keep their names, and so do strings and comments.
"""

import collections
import os
import re
import sys

TOP = sys.argv[1] if len(sys.argv) > 1 else "."
MODULES = {"history": "History", "model": "Model", "rules": "Rules", "worked": "Worked"}
TOKEN = re.compile(r"[^\s(){}\[\];,.λ]+")
OLD_STYLE = re.compile(r"[A-Za-z][\w']*(-[\w']+)+|[a-z][a-z0-9_]*[A-Z]\w*")
TAKEN = {"bit-and": "bit-bit_and", "bit-or": "bit-bit_or"}  # the library has bit_and and bit_or
MADE = ("Answers.antt", "Invariants.antt")  # their names come from the code and from other files
CLAUSE = re.compile(r"^\s*(ghost|requires|ensures)\b")


def crates():
    with open(os.path.join(TOP, "crates.txt")) as f:
        return [line.split(":")[0].split()[0] for line in f if ":" in line and not line.startswith("#")]


def files(*endings):
    for folder, dirs, names in os.walk(os.path.join(TOP, "crates")):
        dirs[:] = sorted(d for d in dirs if d != "out")
        for name in sorted(names):
            if name.endswith(endings):
                yield os.path.join(folder, name)


def read(path):
    with open(path, encoding="utf-8") as f:
        return f.read()


def write(path, text):
    with open(path, "w", encoding="utf-8") as f:
        f.write(text)


def code(text):
    """A file without its comments and the paths of its imports."""
    return re.sub(r"(?m)^\s*use \S+", "", re.sub(r"--[^\n]*", "", text))


def from_libraries(text):
    """The names that a file imports from outside the repository."""
    own = tuple(f"Rattle.{c}." for c in crates())
    names = set()
    for path, listed in re.findall(r"^\s*use (\S+?)\.\{([^}]*)\}", text, re.M):
        if not path.startswith(own):
            names |= {n.split(" as ")[0].strip() for n in listed.split(",")}
    return names


def new_spelling(name):
    if name in TAKEN:
        return TAKEN[name]
    words = name.replace("-", "_")
    if "-" in name or not words[0].islower():
        return words
    return re.sub(r"[A-Z]", lambda m: "_" + m.group(0).lower(), words)


def own_names():
    names = set()
    for path in files(".antt"):
        if not path.endswith(MADE):
            text = read(path)
            names |= {t for t in TOKEN.findall(code(text)) if OLD_STYLE.fullmatch(t)} - from_libraries(text)
    return {n: new_spelling(n) for n in names}


def collisions(spelling):
    """New names that two old names share, or that a file has already beside the old one."""
    shared = collections.defaultdict(set)
    for old, new in spelling.items():
        shared[new].add(old)
    found = [f"{new}: {sorted(olds)}" for new, olds in shared.items() if len(olds) > 1]
    for path in files(".antt"):
        tokens = set(TOKEN.findall(code(read(path))))
        found += [f"{path}: {o} and {spelling[o]}" for o in tokens & spelling.keys() if spelling[o] in tokens]
    return found


def respelled(line, spelling):
    return TOKEN.sub(lambda m: spelling.get(m.group(0), m.group(0)), line)


def respell(path, spelling):
    lines = read(path).split("\n")
    in_source = path.endswith(".rt")
    for i, line in enumerate(lines):
        if in_source and not CLAUSE.match(line):
            continue
        mark = "//" if in_source else "--"
        before, comment, after = line.partition(mark)
        lines[i] = respelled(before, spelling) + comment + after
    write(path, "\n".join(lines))


def rename_modules():
    for path in files(".antt", ".rt"):
        text = read(path)
        for old, new in MODULES.items():
            text = re.sub(rf"\b(Rattle\.access\.(?:specs|proofs))\.{old}\b", rf"\1.{new}", text)
        if path.endswith("Lib.antt"):
            text = re.sub(r"(?m)^((?:pub )?mod )(\w+)$", lambda m: m.group(1) + MODULES.get(m.group(2), m.group(2)), text)
        write(path, text)
    for part in ("specs", "proofs"):
        for old, new in MODULES.items():
            for ending in ("", ".antt"):
                here = os.path.join(TOP, "crates/access", part, old + ending)
                if os.path.exists(here):
                    os.rename(here, os.path.join(TOP, "crates/access", part, new + ending))


def main():
    spelling = own_names()
    clash = collisions(spelling)
    if clash:
        print("\n".join(clash))
        return 1
    for path in files(".antt", ".rt"):
        respell(path, spelling)
    rename_modules()
    print(f"{len(spelling)} names respelled")
    return 0


if __name__ == "__main__":
    raise SystemExit(main())
