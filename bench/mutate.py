#!/usr/bin/env python3
"""Writes edits of a crate that each turn one thing of one body, to find what its clauses let through.

    mutate.py CRATE [MOST]

fills crates/CRATE/must-fail with at most MOST edits (60), drawn from all that there are, in place of those that stand
there: so run it in a clone that is thrown away. Then `rt must-fail CRATE` tries them, and each that it says is NOT
REFUSED is a gap in a clause, or a body that means the same (how much room is taken at first, say, or which of two equal
things comes first). A comparison is turned or made strict, two sums or tests are exchanged, a number is one more, a
truth value or a condition is negated, and a call, an assignment or an early return is left out. Tests, clauses and
lines that stand more than once in their file are passed over.
"""
import os
import random
import re
import shutil
import sys
from asked import answer_help

answer_help(__name__, __doc__)

ROOT = os.path.dirname(os.path.dirname(os.path.abspath(__file__)))
MOST = 60
HEAD = re.compile(r"( *)(?:pub(?:\([a-z]+\))? )?(?:const )?fn (\w+)")
TURNED = [(" < ", " <= "), (" <= ", " < "), (" > ", " >= "), (" >= ", " > "), (" == ", " != "), (" != ", " == "),
          (" && ", " || "), (" || ", " && "), (" + ", " - "), (" - ", " + "), (".min(", ".max("), (".max(", ".min(")]
NUMBER = re.compile(r"(?<![\w.\"'])(\d+)(?![\w.\"'])")
CALL = re.compile(r"^[\w.&*\[\]]+(?:\.|\()[^=]*\)\??;$")
ASSIGNMENT = re.compile(r"^[\w.\[\]]+ [+\-|]?= .*;$")
PASSED_OVER = ("//", "#[", "ghost", "ensures", "requires", "unreachable")


def bodies(lines):
    """The lines of bodies, each with its function's name, its place in the file and the line before."""
    name, waits, inside = "", None, None
    for place, line in enumerate(lines):
        if inside is not None:
            if line == " " * inside + "}":
                inside = None
            else:
                yield name, place, line.strip(), lines[place - 1]
            continue
        head = HEAD.match(line)
        if head:
            name, waits = head.group(2), len(head.group(1))
            if line.endswith("{"):
                inside = waits
        elif waits is not None and (line == " " * waits + "{" or re.match(rf" {{{waits}}}\).*{{$", line)):
            inside = waits


def turned(line, before):
    """What a line is turned into, each with a word for how. What ends a `let .. else` has to stay."""
    for old, new in TURNED:
        if old in line:
            yield "turned", line.replace(old, new, 1)
    for old, new in (("true", "false"), ("false", "true")):
        if re.search(rf"\b{old}\b", line):
            yield "negated", re.sub(rf"\b{old}\b", new, line, count=1)
    number = NUMBER.search(line)
    if number:
        yield "number", line[:number.start()] + str(int(number.group(1)) + 1) + line[number.end():]
    if re.match(r"^if (?!let).*\{$", line):
        yield "condition", re.sub(r"^if (.*) \{$", r"if !(\1) {", line)
    is_step = (CALL.match(line) or ASSIGNMENT.match(line)) and not line.startswith("let ")
    is_return = line.startswith("return ") and line.endswith(";") and not before.endswith(" else {")
    if is_step or is_return:
        yield "gone", "();"


def edits(folder):
    """All edits of a crate's sources, as the name of a file, a name for the edit, and its two texts."""
    for file in sorted(os.listdir(f"{folder}/src")):
        if "tests" in file:
            continue
        with open(f"{folder}/src/{file}", encoding="utf-8") as it:
            text = it.read()
        for name, place, line, before in bodies(text.split("\n")):
            if line and not line.startswith(PASSED_OVER) and text.count(line) == 1:
                for how, new in turned(line, before):
                    yield file, f"{file[:-3]}_{name}_{place + 1}_{how}", line, new


def main():
    folder = os.path.join(ROOT, "crates", sys.argv[1])
    most = int(sys.argv[2]) if len(sys.argv) > 2 else MOST
    found = list(edits(folder))
    random.Random(1).shuffle(found)
    into = f"{folder}/must-fail"
    shutil.rmtree(into, ignore_errors=True)
    os.makedirs(into)
    for place, (file, name, old, new) in enumerate(found[:most]):
        with open(f"{into}/{name}_{place}.edit", "w", encoding="utf-8") as it:
            it.write(f"file: src/{file}\nold: {old}\nnew: {new}\n")
    print(f"{min(most, len(found))} of {len(found)} edits")


if __name__ == "__main__":
    main()
