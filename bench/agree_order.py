#!/usr/bin/env python3
"""Compares searches with the tracks in order with plain ones, on small designs that it makes.

    agree_order.py [PROGRAM]

Makes a hundred small designs under subset and a hundred under universal switch blocks, with boxes that open every
track, and searches each at a width near the one that it needs, with `--symmetry` and without: both have to say the
same, each refutation has to be accepted, each routing legal, and `minisat`, where it is there, has to say the same of
the clauses with the order. Prints a line for each pattern, and one for each design where something differs. Its status
is 1 where there is one.
"""
import os
import shutil
import subprocess
import sys
import tempfile
from asked import answer_help

answer_help(__name__, __doc__)

HERE = os.path.dirname(os.path.abspath(__file__))
BUILT = os.path.join(HERE, "..", "crates", "router", "out", "router")
FILES = ("d.arch", "d.net", "d.place", "d.route")
ROUTED, UNROUTABLE = 0, 1
SATISFIABLE, UNSATISFIABLE = 10, 20


def status(*words):
    return subprocess.run(words, stdout=subprocess.DEVNULL, stderr=subprocess.DEVNULL).returncode


def compare(program, pattern, number):
    """The status of the plain search, and what differs."""
    maker = [sys.executable, os.path.join(HERE, "make_design.py")]
    subprocess.run([*maker, "d", str(2 + number % 4), pattern, "1", "0.9", str(number)], check=True)
    width = str(1 + number // 4 % 6)
    plain = status(program, "route", *FILES, width, "plain")
    ordered = status(program, "route", *FILES, width, "ordered", "--symmetry")
    wrong = []
    if plain not in (ROUTED, UNROUTABLE) or ordered != plain:
        wrong.append(f"status {plain} without the order, {ordered} with it")
    if ordered == ROUTED and status(program, "verify", *FILES, width, "ordered.route") != 0:
        wrong.append("the routing is not legal")
    if ordered == UNROUTABLE and status(program, "check", "ordered.cnf", "ordered.lrat") != 0:
        wrong.append("the refutation is not accepted")
    if shutil.which("minisat"):
        status(program, "encode", *FILES, width, "all", "--symmetry")
        if status("minisat", "-verb=0", "all.cnf") != (SATISFIABLE if plain == ROUTED else UNSATISFIABLE):
            wrong.append("minisat says otherwise of the clauses")
    return plain, wrong


def main():
    program = os.path.abspath(sys.argv[1] if len(sys.argv) > 1 else BUILT)
    failed = False
    with tempfile.TemporaryDirectory() as folder:
        os.chdir(folder)
        for pattern in ("subset", "universal"):
            routed = unroutable = 0
            for number in range(100):
                came, wrong = compare(program, pattern, number)
                routed += came == ROUTED
                unroutable += came == UNROUTABLE
                for what in wrong:
                    failed = True
                    print(f"{pattern}, design {number}: {what}")
            print(f"{pattern}: {routed} routed, {unroutable} unroutable")
        os.chdir("/")
    sys.exit(1 if failed else 0)


main()
