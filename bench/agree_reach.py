#!/usr/bin/env python3
"""Compares the clauses that `encode --reach` writes with those of reach_clauses.py on designs that it makes.

    agree_reach.py [PROGRAM]

Makes three hundred small designs under the three patterns, with boxes that open all tracks or a part of them, and
encodes each at a width from 1 to 5 and a reach from 1 to 64. Prints a line for each pattern, and one for each
design whose clauses differ. Its status is 1 where there is one.
"""
import os
import subprocess
import sys
import tempfile

from judge import Problem
from reach_clauses import Clauses
from asked import answer_help

answer_help(__name__, __doc__)

HERE = os.path.dirname(os.path.abspath(__file__))
BUILT = os.path.join(HERE, "..", "crates", "router", "out", "router")
PATTERNS = ("subset", "wilton", "universal")
FRACTIONS = ("1", "0.7", "0.5", "0.3")
FILES = ("d.arch", "d.net", "d.place", "d.route")
REACHES = (1, 2, 3, 5, 64)


def text(name):
    with open(name, encoding="ascii") as file:
        return file.read()


def differs(program, pattern, number):
    """What differs on the design with this number, if something does."""
    fraction = FRACTIONS[number % 4]
    width = 1 + number % 5
    reach = REACHES[number // 5 % 5]
    maker = [sys.executable, os.path.join(HERE, "make_design.py")]
    subprocess.run([*maker, "d", str(2 + number % 2), pattern, fraction, "0.9", str(number)], check=True)
    words = [program, "encode", *FILES, str(width), "out", "--reach", str(reach)]
    if subprocess.run(words, stdout=subprocess.DEVNULL).returncode != 0:
        return "no clauses"
    if text("out.cnf") != Clauses(Problem(*map(text, FILES)), width, reach).text():
        return f"other clauses at width {width} within {reach} joins"
    return None


def main():
    program = os.path.abspath(sys.argv[1] if len(sys.argv) > 1 else BUILT)
    wrong = 0
    with tempfile.TemporaryDirectory() as desk:
        os.chdir(desk)
        for pattern in PATTERNS:
            agreed = 0
            for number in range(100):
                what = differs(program, pattern, number)
                if what is None:
                    agreed += 1
                else:
                    wrong += 1
                    print(f"{pattern} {number}: {what}")
            print(f"{pattern}: {agreed} of 100 designs have the same clauses")
    sys.exit(1 if wrong else 0)


main()
