#!/usr/bin/env python3
"""Compares the search of built programs on the same problems, beside that of `minisat`.

    measure_search.py [--whole] [--fresh] PROGRAM..

The problems are 10 shuffled rings (make_rings.py), crowded cells (make_crowd.py), and meshes of 8 to 100 cells a side
(make_design.py, and `gen` of the first program), with a track too few, with just enough, and with many. With `--fresh`
they are twelve meshes of other seeds, which were named before any search had been tried on them. Prints for
each problem what each program came to, its conflicts and its seconds of user and system time, then those of `minisat`
without and with its preprocessing. At the end come the geometric means, and how those of each program stand to those
of `minisat`: conflicts where all refuted the clauses, seconds everywhere.

The time of a program is that of `route` less that of `encode`, so that neither has its files in it; with `--whole` it
is that of the whole run of `route`, reading and writing too, as that of `minisat` always is. All run in turn, three
times, and nine times where they take less than 0.05 seconds; the least time counts. A run that has taken LIMIT seconds
is stopped, and counts as so many.
"""
import math
import os
import re
import resource
import subprocess
import sys
import tempfile
from asked import answer_help

answer_help(__name__, __doc__)

HERE = os.path.dirname(os.path.abspath(__file__))
FOUR = [f"p.{ending}" for ending in ("arch", "net", "place", "route")]
MINISAT = [["minisat", "-no-pre", "-no-elim", "p.cnf"], ["minisat", "p.cnf"]]
LIMIT = 60  # seconds

RINGS = [
    ("make_rings.py", f"{parts} 3 {seed}", 6)
    for parts, seeds in ((5, (1, 2, 3)), (7, (1, 2, 3)), (9, (1, 2, 3, 4)))
    for seed in seeds
]
CROWDS = [("make_crowd.py", str(nets), nets - 1) for nets in (8, 9, 10)]
MESHES = [
    ("make_design.py", kind, width)
    for kind, width in (
        ("10 subset 1 0.9 1", 7), ("12 subset 1 0.9 2", 8), ("12 wilton 1 0.9 1", 9), ("12 universal 0.8 0.9 3", 8),
        ("20 subset 1 0.9 1", 9), ("20 subset 1 0.9 1", 10), ("20 wilton 1 0.9 1", 20),
    )
]
LARGE = [
    ("gen", kind, width)
    for kind, width in (
        ("1 20 400", 6), ("1 20 400", 7), ("1 20 400", 32), ("2 20 400", 7), ("7 40 1600", 7), ("7 40 1600", 8),
        ("1 100 10000", 7), ("1 100 10000", 8),
    )
]

FRESH = [
    ("make_design.py", kind, width)
    for kind, width in (
        ("10 subset 1 0.9 31", 7), ("12 subset 1 0.9 32", 8), ("12 wilton 1 0.9 33", 9), ("12 universal 0.8 0.9 34", 8),
        ("20 subset 1 0.9 35", 9), ("20 subset 1 0.9 35", 10),
    )
] + [
    ("gen", kind, width)
    for kind, width in (
        ("11 20 400", 6), ("11 20 400", 7), ("12 40 1600", 7), ("12 40 1600", 8), ("13 100 10000", 7),
        ("13 100 10000", 8),
    )
]


def spent():
    """The seconds of all runs so far."""
    usage = resource.getrusage(resource.RUSAGE_CHILDREN)
    return usage.ru_utime + usage.ru_stime


def limited():
    resource.setrlimit(resource.RLIMIT_CPU, (LIMIT, LIMIT))


def run(words):
    """The seconds of a run, and what it prints."""
    before = spent()
    said = subprocess.run(words, capture_output=True, text=True, preexec_fn=limited).stdout
    return spent() - before, said


def least(commands):
    """The least time of each command, and what it printed then."""
    best = [(math.inf, "")] * len(commands)
    for turn in range(9):
        for k, words in enumerate(commands):
            if turn == 0 or best[k][0] < (5 if turn < 3 else 0.05):
                best[k] = min(best[k], run(words))
    return best


def make(program, maker, kind):
    """Makes the four files of a problem."""
    words = [sys.executable, os.path.join(HERE, maker), "p", *kind.split()]
    if maker == "gen":
        words = [program, "gen", *kind.split(), "p"]
    subprocess.run(words, stdout=subprocess.DEVNULL, check=True)


def learned(name):
    """How many clauses a log adds, and none where there is no log."""
    if not os.path.exists(name):
        return 0
    with open(name, "rb") as log:
        return sum(1 for line in log if line.split(b" ", 2)[1] != b"d")


def measured(programs, width, is_whole):
    """For each program and each `minisat` its conflicts and seconds; and what each program said."""
    encode = [[program, "encode", *FOUR, str(width), "p"] for program in programs]
    route = [[program, "route", *FOUR, str(width), f"found{k}"] for k, program in enumerate(programs)]
    run(encode[0])
    times = least(route + MINISAT + ([] if is_whole else encode))
    found, encoding = times[: len(route) + 2], times[len(route) + 2 :]
    seconds = [max(found[k][0] - (encoding[k][0] if k < len(encoding) else 0), 0.001) for k in range(len(found))]
    conflicts = [learned(f"found{k}.lrat") for k in range(len(programs))]
    for _, said in found[len(programs) :]:
        told = re.search(r"conflicts\s*: (\d+)", said)
        conflicts.append(int(told.group(1)) if told else 0)
    return list(zip(conflicts, seconds)), [said.strip() for _, said in found[: len(programs)]]


def mean(values):
    return math.exp(sum(math.log(value) for value in values) / len(values)) if values else math.nan


def summed(name, rows, count):
    """Prints the means of these rows, and how each program stands to `minisat`."""
    refuted = [row for row in rows if all(many > 0 for many, _ in row)]
    many = [mean([row[k][0] for row in refuted]) for k in range(count + 2)]
    seconds = [mean([row[k][1] for row in rows]) for k in range(count + 2)]
    print(f"{name}: {len(rows)} problems, " + "; ".join(f"{s:.3f} s" for s in seconds), end=", of which ")
    print(f"{len(refuted)} were refuted with " + "; ".join(f"{m:.0f}" for m in many) + " conflicts")
    for k in range(count):
        print(
            f"    program {k + 1}: {seconds[k] / seconds[-2]:.2f} of the time and {many[k] / many[-2]:.2f} of the conflicts "
            f"of minisat without preprocessing, {seconds[k] / seconds[-1]:.2f} and {many[k] / many[-1]:.2f} with it"
        )


def main():
    is_whole = "--whole" in sys.argv
    programs = [os.path.abspath(word) for word in sys.argv[1:] if not word.startswith("--")]
    rows = {"rings": [], "others": []}
    problems = FRESH if "--fresh" in sys.argv else RINGS + CROWDS + MESHES + LARGE
    for maker, kind, width in problems:
        with tempfile.TemporaryDirectory() as folder:
            os.chdir(folder)
            make(programs[0], maker, kind)
            found, said = measured(programs, width, is_whole)
            os.chdir("/")
        name = f"{maker.removeprefix('make_').removesuffix('.py')} {kind} at {width}"
        print(f"{name}: {said[0]}; " + "; ".join(f"{many} {seconds:.3f}" for many, seconds in found), flush=True)
        rows["rings" if maker == "make_rings.py" else "others"].append(found)
    for name, these in (*rows.items(), ("all", rows["rings"] + rows["others"])):
        if these:
            summed(name, these, len(programs))


main()
