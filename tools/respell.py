#!/usr/bin/env python3
"""Brings the repository's own definitions and lemmas to today's spelling, once, after port.py: words in snake case, with a dash only between two
names. Functions, exported names, strings, inputs and outputs keep theirs.

usage: python3 tools/respell.py    at the top of the repository
"""

import collections
import glob
import re

DECLARED = re.compile(r"^\s*(?:(?:abbrev|unfoldable|pub|data|record|ruleset) +)*([^\s:({},.;=λ]+)(?: *(?:\{[^}]*\}|\([^)]*\)))* *:(?: |$)")
FUNCTION = re.compile(r"^\s*(?:pub(?:\([a-z]+\))? +)?(?:unsafe +)?(?:extern +\"C\" +)?fn +(\w+)")
# A dash that stands between two names of definitions stays.
PAIRS = {"build-length", "sum-append", "zeros-length", "stretch-cons", "stretch-length"}
WORD = r"A-Za-z0-9_'₀-₉·≤≢≡∷-"


def files(*kinds):
    return sorted(p for kind in kinds for p in glob.glob(f"crates/*/{kind}", recursive=True) if "/out/" not in p)


def read(path):
    with open(path, encoding="utf-8") as f:
        return f.read()


def snake(word):
    """rowInRange is row_in_range; a name that begins with a capital is a type or a fact, and keeps it."""
    return re.sub(r"(?<=[a-z0-9])([A-Z])(?=[a-z]|$|_)", lambda m: "_" + m.group(1).lower(), word) if word[0].islower() else word


def spelling():
    declared = collections.defaultdict(set)
    for path in files("specs/**/*.antt", "proofs/*.antt"):
        for line in read(path).splitlines():
            found = DECLARED.match(line)
            if found:
                declared[found.group(1)].add(path)
    functions = {m.group(1) for path in files("src/**/*.rt") for m in map(FUNCTION.match, read(path).splitlines()) if m}
    turned = {name: snake(name) for name in declared if snake(name) != name}
    taken = set(declared) | set(turned.values()) | functions
    for name in sorted(declared):
        if "-" in name and name not in PAIRS and re.fullmatch(r"[A-Za-z0-9'-]+", name):
            plain = snake(name).replace("-", "_")
            turned[name] = plain + "_lem" if plain in taken else plain
    return turned


class Snake(dict):
    def __missing__(self, word):
        return snake(word)


def turn(path, pattern, turned):
    before = read(path)
    after = pattern.sub(lambda m: turned[m.group(0)], before)
    if after != before:
        with open(path, "w", encoding="utf-8") as f:
            f.write(after)


def main():
    turned = spelling()
    any_of = "|".join(map(re.escape, sorted(turned, key=len, reverse=True)))
    pattern = re.compile(f"(?<![{WORD}])(?:{any_of})(?![{WORD}])")
    for path in files("specs/**/*.antt", "proofs/**/*.antt", "must-fail/*.edit"):
        turn(path, pattern, turned)
    # Of the code only names that its own spelling never makes.
    camel = {name: to for name, to in turned.items() if "-" not in name}
    pattern = re.compile(f"(?<![{WORD}])(?:{'|'.join(map(re.escape, sorted(camel, key=len, reverse=True)))})(?![{WORD}])")
    for path in files("src/**/*.rt"):
        turn(path, pattern, camel)
    # Parameters and local names.
    local = re.compile(f"(?<![{WORD}])[a-z][a-z0-9]*(?:[A-Z][a-z0-9]+)+(?![{WORD}])")
    for path in files("specs/**/*.antt", "proofs/**/*.antt", "must-fail/*.edit", "src/**/*.rt"):
        turn(path, local, Snake())
    ticked = re.compile(f"(?<=[`.])(?:{any_of})(?![{WORD}])|(?<![{WORD}])(?:{'|'.join(map(re.escape, camel))})(?![{WORD}])")
    for path in ["README.md"] + sorted(glob.glob("docs/*.md") + glob.glob("docs/requests/*.md")):
        turn(path, ticked, turned)
        turn(path, local, Snake())
    for path in files("src/lib.rt", "src/main.rt"):
        text = read(path)
        if "#![tactic(auto)]" not in text:
            lines = text.splitlines(keepends=True)
            at = next((i for i, line in enumerate(lines) if not line.startswith("//")), len(lines))
            rest = "".join(lines[at:]).lstrip("\n")
            with open(path, "w", encoding="utf-8") as f:
                f.write("".join(lines[:at]) + "#![tactic(auto)]\n" + ("\n" + rest if rest else ""))
    print(f"respell: {len(turned)} names")


if __name__ == "__main__":
    main()
