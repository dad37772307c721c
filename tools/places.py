#!/usr/bin/env python3
"""Lists the places in crates/*/src that docs/DESIGN-PASS.md counts: python3 tools/places.py [COMMIT]"""
import difflib
import itertools
import re
import subprocess
import sys


def sources(commit):
    """The path and text of every source file, in the work tree or at a commit."""
    listing = ["git", "ls-tree", "-r", "--name-only", commit] if commit else ["git", "ls-files"]
    for path in subprocess.check_output(listing, text=True).split():
        if re.fullmatch(r"crates/\w+/src/.*\.rt", path):
            text = subprocess.check_output(["git", "show", f"{commit}:{path}"], text=True) if commit else open(path).read()
            yield path, text


def functions(text):
    """Name, parameters, contract and body of every function, a trait's without a body too."""
    for found in re.finditer(r"^( *)(?:pub(?:\(super\))? )?fn (\w+)(?:<[^>]*>+)?\(", text, re.M):
        rest = text[found.end():]
        depth, end = 1, 0
        while depth:
            depth += {"(": 1, ")": -1}.get(rest[end], 0)
            end += 1
        stop = re.search(rf"^{found[1]}}}$|;$|\{{\}}$", rest[end:], re.M)
        whole = rest[end:end + stop.end()] if stop else rest[end:]
        opens = re.search(r"(?:^|\s)\{$", whole, re.M)
        contract, body = (whole[:opens.start()], whole[opens.end():]) if opens else (whole, "")
        yield found[2], rest[:end - 1], contract, body


def lines(files, pattern, tests=True):
    for path, text in files:
        if tests or ("test" not in path and "cases" not in path):
            for number, line in enumerate(text.split("\n"), 1):
                if re.search(pattern, line) and not re.match(r"\s*(//|ghost|requires|ensures)", line):
                    yield f"{path}:{number}: {line.strip()}"


def shape(body):
    """The body with its names and numbers blotted out."""
    return re.findall(r"[A-Za-z_]\w*!?|\d[\w_]*|\S", re.sub(r"//.*", "", body))


def blotted(tokens):
    words = {"let", "mut", "for", "in", "if", "else", "match", "return", "self", "Ok", "Err", "Some", "None"}
    return [t if t in words or not re.match(r"[\w]", t) else "n" for t in tokens]


def twins(files):
    every = [(p, n, shape(b)) for p, t in files for n, _, _, b in functions(t)]
    every = [(p, n, b) for p, n, b in every if len(b) > 12]
    for (p, n, a), (q, m, b) in itertools.combinations(every, 2):
        alike = difflib.SequenceMatcher(None, blotted(a), blotted(b), autojunk=False).ratio()
        if alike > 0.9:
            yield f"{p} {n} / {q} {m}"


def clauses(files):
    """Clauses that stand in three contracts or more."""
    where = {}
    for path, text in files:
        for name, _, contract, _ in functions(text):
            for _, clause in re.findall(r"(requires|ensures)(?: \w+)? \{ (.*) \}", contract):
                where.setdefault(clause, []).append(f"{path} {name}")
    for clause, places in where.items():
        if len(places) > 2:
            yield f"{clause}: {len(places)} contracts ({', '.join(places)})"


def together(files):
    """Two parameters that three functions of a crate or more take together."""
    where = {}
    for path, text in files:
        for name, parameters, _, _ in functions(text):
            names = re.findall(r"(\w+): ", parameters)
            for pair in itertools.combinations(names, 2):
                where.setdefault((path.split("/")[1], *pair), []).append(name)
    for (crate, a, b), names in where.items():
        if len(names) > 2:
            yield f"{crate}: ({a}, {b}) in {', '.join(names)}"


def enums(files):
    """Enums of two variants of which one has a value: the shape of Option or Result."""
    for path, text in files:
        for name, body in re.findall(r"enum (\w+)[^{]*\{(.*?)^\}", text, re.M | re.S):
            variants = re.findall(r"^    (\w+)(\(|,| \{)", body, re.M)
            if len(variants) == 2 and any(v[1] != "," for v in variants):
                yield f"{path}: enum {name}"


def numbers_for_kinds(files):
    """Constants that are matched as a number's kinds, and functions that make a number of a kind or a refusal."""
    for path, text in files:
        for name in re.findall(r"^const ([A-Z_]+): u\d+ = ", text, re.M):
            if re.search(rf"^ +{name} => ", text, re.M):
                yield f"{path}: const {name}"
        for name, _, contract, body in functions(text):
            if re.search(r"-> u\d+$", contract, re.M) and re.search(r"self as u8|=> \d+,|\.number\(\)", body):
                yield f"{path}: fn {name}"
        for table in re.findall(r"(\w+): \[\(&\[u8\], u8\); \d+\]", text):
            yield f"{path}: a table of inputs and the numbers of their refusals"


def guards(files):
    """A call that answers yes or no, and beside it the value that it guards."""
    for path, text in files:
        for name, _, _, body in functions(text):
            for asked in re.findall(r"if !?self\.(\w+)\(", body):
                yield f"{path}: {name} asks {asked}"


def main():
    files = list(sources(sys.argv[1] if len(sys.argv) > 1 else None))
    points = {
        "1 own Option or Result": enums(files),
        "1 a number for a kind or a refusal": numbers_for_kinds(files),
        "1 a yes or no that guards a value": guards(files),
        "2 twins": twins(files),
        "3 loops and counts by hand": lines(files, r"\bfor \w+ in 0\.\.|\bwhile |\bloop \{|enumerate\(\)|\w \+= |saturating_add"),
        "3 loops that an iterator's method writes": lines(files, r"\bfor \w+ in (?!0\.\.)", False),
        "4 conversions and copies by hand": lines(files, r"self as u8|^    fn (\w+)\(self\) -> u\d+|\w+: self\.\w+,$|fn (eq|cmp|clone|fmt|digits)\("),
        "5 clauses in three contracts": clauses(files),
        "5 parameters that go together": together(files),
        "6 a buffer with a length": lines(files, r"^    (len|at|limit): usize|\[u8; \d+\],$"),
        "7 a switch on steps": lines(files, r"match self(\.byte\(\)\?)? \{"),
    }
    for point, found in points.items():
        found = list(found)
        print(f"{point}: {len(found)}")
        for place in found:
            print(f"    {place}")


main()
