#!/usr/bin/env python3
"""Measures the ways of a search at one width beside each other.

    measure_ways.py members PROGRAM [RINGS]     one search, and 2, 4 and 8 that take turns
    measure_ways.py pins PROGRAM [RINGS]        without pinned tracks, with them, and with tracks in order; crowded
                                                cells too

Runs the built program by each way on 60 shuffled rings (make_rings.py), or on as many as are said, and with `pins` also
on cells that more nets want than there are tracks (make_crowd.py), at the width below what is needed. Prints for each
problem the clauses that the log adds, and the seconds of user and system time and the megabytes of the whole run, files
included; and at the end the geometric means, how they stand to those of the first way, and the least and the greatest
ratio on one problem. A run learns at most 1,000,000 clauses.
"""
import math
import os
import subprocess
import sys
import tempfile
from asked import answer_help

answer_help(__name__, __doc__)

HERE = os.path.dirname(os.path.abspath(__file__))
FOUR = [f"p.{ending}" for ending in ("arch", "net", "place", "route")]
WAYS = {
    "members": {
        "one, keeps": ("--keep",),
        "one, deletes": (),
        "2 members": ("--members", "2"),
        "4 members": ("--members", "4"),
        "8 members": ("--members", "8"),
    },
    "pins": {"without": (), "pinned": ("--pin",), "in order": ("--symmetry",)},
}
CROWDS = range(5, 9)


def routed(program, width, flags):
    """What a run says, the clauses that its log adds, its seconds and its megabytes."""
    for name in ("found.route", "found.cnf", "found.lrat"):
        if os.path.exists(name):
            os.remove(name)
    words = [program, "route", *FOUR, str(width), "found", "--conflicts", "1000000", *flags]
    with open("said", "wb") as said:
        child = subprocess.Popen(words, stdout=said, stderr=subprocess.DEVNULL)
        _, _, usage = os.wait4(child.pid, 0)
        child.returncode = 0
    with open("said", encoding="utf-8") as said:
        report = said.read().strip()
    added = 0
    if os.path.exists("found.lrat"):
        with open("found.lrat", "rb") as log:
            added = sum(line.split(b" ", 2)[1] != b"d" for line in log)
    return report, added, usage.ru_utime + usage.ru_stime, usage.ru_maxrss / 1000


def problem(program, ways, width, script, *words):
    """What each way finds on a problem that a script makes."""
    subprocess.run([sys.executable, os.path.join(HERE, script), "p", *map(str, words)], check=True)
    found = [routed(program, width, flags) for flags in ways.values()]
    shown = "; ".join(f"{added} {seconds:.3f} s {memory:.0f} MB" for _, added, seconds, memory in found)
    reports = ", ".join(sorted({report for report, *_ in found}))
    print(f"{script} {' '.join(map(str, words))} at {width}: {reports}: {shown}", flush=True)
    return found


def mean(values):
    return math.exp(sum(math.log(max(value, 1e-3)) for value in values) / len(values))


def show(ways, rows):
    for k, way in enumerate(ways):
        shown = []
        for of, unit in ((1, "clauses"), (2, "s"), (3, "MB")):
            ratios = [max(found[k][of], 1e-3) / max(found[0][of], 1e-3) for found in rows]
            values = [found[k][of] for found in rows]
            shown.append(f"{mean(values):.3f} {unit}, {mean(ratios):.2f} of the first way "
                         f"({min(ratios):.2f} to {max(ratios):.2f})")
        print(f"{way}: {'; '.join(shown)}")


def main():
    kind, program = sys.argv[1], os.path.abspath(sys.argv[2])
    ways = WAYS[kind]
    rings = int(sys.argv[3]) if len(sys.argv) > 3 else 60
    with tempfile.TemporaryDirectory() as folder:
        os.chdir(folder)
        rows = [problem(program, ways, 6, "make_rings.py", (5, 7, 9)[k % 3], 3, 100 + k // 3) for k in range(rings)]
        if kind == "pins":
            rows += [problem(program, ways, count - 1, "make_crowd.py", count) for count in CROWDS]
        os.chdir("/")
    show(ways, rows)


main()
