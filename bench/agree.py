#!/usr/bin/env python3
"""Compares the answers of the built program with those of outside solvers on designs that it makes.

    agree.py [PROGRAM]

Makes a hundred and eight small designs under the three patterns, searches each at a width near the one that it
needs, and gives the clauses that `encode` writes to each of `minisat` and `cadical` that is there. Prints a line for
each pattern, and one for each case where answers differ or a refutation is not accepted. Its status is 1 where there
is one.
"""
import os
import shutil
import subprocess
import sys
import tempfile
from asked import answer_help

answer_help(__name__, __doc__)

HERE = os.path.dirname(os.path.abspath(__file__))
BUILT = os.path.join(HERE, "..", "crates", "router", "out", "router")
PATTERNS = ("subset", "wilton", "universal")
FRACTIONS = ("1", "0.9", "0.6")
SATISFIABLE, UNSATISFIABLE = 10, 20


def status(*words):
    return subprocess.run(words, stdout=subprocess.DEVNULL, stderr=subprocess.DEVNULL).returncode


def outside(cnf):
    """What each solver that is there says of the clauses, by name."""
    said = {}
    if shutil.which("minisat"):
        said["minisat"] = status("minisat", "-verb=0", cnf)
    if shutil.which("cadical"):
        said["cadical"] = status("cadical", "-q", cnf)
    return said


def compare(program, pattern, number):
    """Whether the program said `routed`, and what differs."""
    fraction = FRACTIONS[number % 3]
    size = 3 + number % 4
    width = 3 + number // 3 % 6
    maker = [sys.executable, os.path.join(HERE, "make_design.py")]
    subprocess.run([*maker, "d", str(size), pattern, fraction, "0.9", str(number)], check=True)
    files = ["d.arch", "d.net", "d.place", "d.route"]
    came = status(program, "route", *files, str(width), "out")
    wrong = []
    if came not in (0, 1):
        return None, [f"status {came}"]
    if status(program, "encode", *files, str(width), "all") != 0:
        wrong.append("no clauses")
    for solver, answer in outside("all.cnf").items():
        if answer != (SATISFIABLE if came == 0 else UNSATISFIABLE):
            wrong.append(f"{solver} answers {answer}")
    if came == 1 and status(program, "check", "out.cnf", "out.lrat") != 0:
        wrong.append("the refutation is not accepted")
    if came == 1 and open("out.cnf").read() != open("all.cnf").read():
        wrong.append("the clauses of `route` and of `encode` differ")
    return came == 0, wrong


def main():
    program = os.path.abspath(sys.argv[1] if len(sys.argv) > 1 else BUILT)
    failed = False
    with tempfile.TemporaryDirectory() as folder:
        os.chdir(folder)
        for pattern in PATTERNS:
            routed = unroutable = 0
            for number in range(36):
                answer, wrong = compare(program, pattern, number)
                routed += answer is True
                unroutable += answer is False
                for what in wrong:
                    failed = True
                    print(f"{pattern}, design {number}: {what}")
            print(f"{pattern}: {routed} routed, {unroutable} unroutable")
        os.chdir("/")
    sys.exit(1 if failed else 0)


main()
