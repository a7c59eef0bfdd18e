#!/usr/bin/env python3
"""names_stand.py: whether each name that docs/THEOREMS.md gives stands in the sources, each edit that it calls
the gate's in a must-fail folder, each other one in bench/edits, and each edit of the gate in that page."""
import glob
import os
import re
import sys

from asked import answer_help

answer_help(__name__, __doc__)

TOP = os.path.dirname(os.path.dirname(os.path.abspath(__file__)))
PAGE = "docs/THEOREMS.md"


def texts(pattern):
    for path in glob.glob(f"{TOP}/crates/*/{pattern}", recursive=True):
        with open(path, encoding="utf-8") as it:
            yield it.read()


def found(pattern, expression):
    return {name for text in texts(pattern) for name in re.findall(expression, text)}


def stems(pattern):
    return {os.path.basename(path).rpartition(".")[0] for path in glob.glob(f"{TOP}/{pattern}")}


CRATES = set(os.listdir(f"{TOP}/crates"))
DEFINED = found("specs/**/*.antt", r"(?m)^ *(?:unfoldable |abbrev |opaque |data |record )*pub (?:record |data |abbrev )?([\w-]+)")
DEFINED |= found("specs/**/*.antt", r"(?m)^\s+pub ([\w-]+) ")
ITEMS = found("src/**/*.rt", r"\b(?:fn|struct|enum|trait|type|const|mod|ghost) (\w+)")
CLAUSES = found("src/**/*.rt", r"\bensures (\w+) \{")
VARIANTS = found("src/**/*.rt", r"(?m)^    ([A-Z]\w+)[,({ ]")
TESTS = found("src/**/*.rt", r"#\[test\]\s+fn (\w+)")
ROWS = {os.path.basename(path) for path in glob.glob(f"{TOP}/crates/*/data/*/*.rows")}
IN_GATE = stems("crates/*/must-fail/*.edit")
APART = stems("bench/edits/*/*.edit")


def stands(name):
    """Whether what stands between two accents is something of the repository."""
    if name.startswith("--"):
        return any(name in open(it, encoding="utf-8").read() for it in glob.glob(f"{TOP}/docs/help/*"))
    if "/" in name and name != "specs/":
        return any(map(os.path.exists, (f"{TOP}/{name}", f"{TOP}/crates/{name}", f"{TOP}/crates/{name}.antt")))
    if name.endswith(".rows"):
        return name in ROWS
    parts = name.split("::")
    known = CRATES | DEFINED | ITEMS | CLAUSES | VARIANTS | TESTS | IN_GATE | APART
    files = {os.path.basename(it)[:-5] for it in glob.glob(f"{TOP}/crates/*/specs/*.antt")}
    return all(it in known or it in files or it in PLAIN for it in parts) or name == "specs/"


# What is named beside the sources: words of the gate, and commands.
PLAIN = {"must-fail", "clap", "main", "core", "gen", "encode", "check", "rt", "sweep"}


def turning(text):
    """What the square brackets of a promise name: edits of the gate, and those apart."""
    for inside in re.findall(r"(?<!\])\[([^\]]*)\](?!\()", text):
        gate, _, apart = inside.partition("apart")
        for half, where in ((gate, IN_GATE), (apart, APART)):
            for name in re.findall(r"`([^`]+)`", half):
                if re.fullmatch(r"[a-z]\w*", name) and name not in CRATES | TESTS | PLAIN:
                    yield name, where


def main():
    with open(f"{TOP}/{PAGE}", encoding="utf-8") as it:
        page = re.sub(r"\s+", " ", it.read())
    wrong = [f"{name} stands nowhere" for name in sorted(set(re.findall(r"`([^`]+)`", page))) if not stands(name)]
    italic = sorted(set(re.findall(r"(?<!\*)\*(\w+)\*(?!\*)", page)) - {"italics"})
    wrong += [f"*{name}* is no definition" for name in italic if name not in DEFINED]
    promises = page[page.index("## Promises") : page.index("## Not proved")]
    named = list(turning(promises))
    for name, where in named:
        if name not in where:
            wrong.append(f"{name} is no edit {'of the gate' if where is IN_GATE else 'of bench/edits'}")
    told = {name for name, where in named if where is IN_GATE}
    wrong += [f"{name} is tried by the gate, and {PAGE} does not name it" for name in sorted(IN_GATE - told)]
    print("\n".join(wrong + [f"{PAGE}: {len(wrong)} names do not stand"]))
    return 1 if wrong or not named or not italic else 0


if __name__ == "__main__":
    sys.exit(main())
