#!/usr/bin/env python3
"""Compares the judges of routings of a placement, over what `global` finds for small designs and over changes of it.

    agree_placed.py [PROGRAM [DESIGNS]]

Makes so many small designs (200), of each kind of switch block and with boxes that open all, three quarters or half of
the tracks. Each is routed by `global` at the widths from what `bound` says on, up to 12, with one wire of a cell for
each net and, for every second design, with several. What is found has to be legal for `judge` and for `judge.py`, and
strictly so for `verify` within its own cells; nothing may be found below the bound. Then lines of it are changed, ten
times, as `make_judged.py` changes them, and `judge` and `judge.py` have to say the same of each changed file, freely
and strictly. Prints how many of what kind there were, and a line for each that differs; its status is 1 where there
is one.
"""
import os
import random
import re
import subprocess
import sys
import tempfile
from asked import answer_help
from judge import FREE, STRICT, Problem, placed_judged
from make_judged import CHANGES, Base, NoPlace, is_read, replaced

answer_help(__name__, __doc__)

HERE = os.path.dirname(os.path.abspath(__file__))
BUILT = os.path.join(HERE, "..", "crates", "router", "out", "router")
PLACED = ("d.arch", "d.net", "d.place")
MOST = 12


def said(*words):
    return subprocess.run(words, stdout=subprocess.PIPE, stderr=subprocess.DEVNULL, text=True).stdout.split("\n")[-2]


def text_of(name):
    with open(name) as file:
        return file.read()


class Tally:
    def __init__(self):
        self.routed = self.unrouted = self.changed = self.legal = self.failed = 0

    def differs(self, number, what):
        self.failed += 1
        print(f"design {number}: {what}")


def judge_both(program, width, name, kind):
    """What the program and `judge.py` say of a file."""
    words = [program, "judge", *PLACED, str(width), name] + (["--strict"] if kind == STRICT else [])
    text = text_of(name)
    problem = Problem(*(text_of(part) for part in PLACED), text)
    return said(*words), placed_judged(problem, width, text, kind)


def change(chance, width, tally, number, program):
    """Changes lines of the route that was found, and has both judge what comes of it."""
    base = Base(Problem(*(text_of(part) for part in PLACED), text_of("out.route")), width, text_of("out.route"), chance)
    for _ in range(10):
        try:
            first, last, lines = chance.choice(list(CHANGES))(base)
        except NoPlace:
            continue
        text = replaced(base.text, first, last, lines)
        if not is_read(text):
            continue
        with open("changed.route", "w") as file:
            file.write(text)
        for kind in (FREE, STRICT):
            ours, theirs = judge_both(program, width, "changed.route", kind)
            tally.changed += 1
            tally.legal += ours == "legal"
            if ours != theirs:
                tally.differs(number, f"at {width} a changed file is '{ours}' for `judge`, '{theirs}' for `judge.py`")


def compare(program, number, tally):
    pattern = ("subset", "wilton", "universal")[number % 3]
    share = ("1", "0.75", "0.5")[number // 3 % 3]
    maker = [sys.executable, os.path.join(HERE, "make_design.py")]
    subprocess.run([*maker, "d", str(2 + number % 4), pattern, share, "0.9", str(number)], check=True)
    bound = int(re.fullmatch(r"bound (\d+)", said(program, "bound", *PLACED)).group(1))
    free = ["--free"] if number % 2 else []
    for width in range(max(1, bound - 1), MOST + 1):
        if said(program, "global", *PLACED, str(width), "out", *free) != f"routed {width}":
            continue
        if width < bound:
            tally.differs(number, f"routed at {width}, and the bound is {bound}")
        kind = FREE if free else STRICT
        for answer in judge_both(program, width, "out.route", kind):
            if answer != "legal":
                tally.differs(number, f"what was found at {width} is {answer}")
        if not free and said(program, "verify", *PLACED, "out.route", str(width), "out.route") != "legal":
            tally.differs(number, f"`verify` does not take what was found at {width}")
        tally.routed += 1
        change(random.Random(number), width, tally, number, program)
        return
    tally.unrouted += 1


def main():
    program = os.path.abspath(sys.argv[1] if len(sys.argv) > 1 else BUILT)
    tally = Tally()
    with tempfile.TemporaryDirectory() as folder:
        os.chdir(folder)
        for number in range(int(sys.argv[2]) if len(sys.argv) > 2 else 200):
            compare(program, number, tally)
        os.chdir("/")
    print(f"{tally.routed} routed, {tally.unrouted} not up to {MOST} tracks; {tally.changed} judgements of changed")
    print(f"files, of which {tally.legal} are legal; {tally.failed} differ")
    sys.exit(1 if tally.failed else 0)


if __name__ == "__main__":
    main()
