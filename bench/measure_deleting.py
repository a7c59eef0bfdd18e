#!/usr/bin/env python3
"""Measures what a search costs that deletes clauses, beside one that keeps them and beside `minisat`.

    measure_deleting.py PROGRAM [RINGS]

Runs the built program on 30 shuffled rings (make_rings.py), or on as many as are said, with and without `--keep`, and
`minisat` on the same clauses without and with its preprocessing. Prints for each ring the conflicts, the seconds of user
and system time of the whole run, files included, and the megabytes that it takes at most; then what `check` takes
of both logs; and at the end the geometric means, by parts and in all. Behind these come problems of a million clauses and more.
"""
import math
import os
import re
import subprocess
import sys
import tempfile
from asked import answer_help

answer_help(__name__, __doc__)

HERE = os.path.dirname(os.path.abspath(__file__))
MINISAT = (("minisat", "-no-pre", "-no-elim", "p.cnf"), ("minisat", "p.cnf"))
PARTS = (5, 7, 9)
FOUR = [f"p.{ending}" for ending in ("arch", "net", "place", "route")]


def run(words):
    """The seconds and the megabytes of a run, and what it prints."""
    with open("said", "wb") as said:
        child = subprocess.Popen(words, stdout=said, stderr=subprocess.DEVNULL)
        _, _, usage = os.wait4(child.pid, 0)
        child.returncode = 0
    with open("said", encoding="utf-8", errors="replace") as said:
        return usage.ru_utime + usage.ru_stime, usage.ru_maxrss / 1000, said.read()


def learned(name):
    """How many clauses a log adds, and how often it deletes some."""
    added = deleted = 0
    if not os.path.exists(name):
        return 0, 0
    with open(name, "rb") as log:
        for line in log:
            if line.split(b" ", 2)[1] == b"d":
                deleted += 1
            else:
                added += 1
    return added, deleted


def routed(program, width, *flags):
    for name in ("found.route", "found.cnf", "found.lrat"):
        if os.path.exists(name):
            os.remove(name)
    seconds, memory, said = run([program, "route", *FOUR, str(width), "found", "--conflicts", "10000000", *flags])
    added, deleted = learned("found.lrat")
    return added, seconds, memory, deleted, said.strip()


def compared(words):
    seconds, memory, said = run(words)
    conflicts = re.search(r"conflicts\s*: (\d+)", said)
    return int(conflicts.group(1)) if conflicts else 0, seconds, memory, 0, ""


def checked(program):
    seconds, memory, said = run([program, "check", "found.cnf", "found.lrat"])
    return f"{said.strip()} {seconds:.2f} s {memory:.0f} MB"


def mean(values):
    return math.exp(sum(math.log(max(value, 1e-3)) for value in values) / len(values)) if values else 0


def measured(program, width, name):
    """A problem whose four files stand here, at a width."""
    deletes = routed(program, width)
    deletes_check = checked(program) if deletes[0] else ""
    keeps = routed(program, width, "--keep")
    keeps_check = checked(program) if keeps[0] else ""
    subprocess.run([program, "encode", *FOUR, str(width), "p"], check=True, stdout=subprocess.DEVNULL)
    found = [deletes, keeps, *(compared(words) for words in MINISAT)]
    shown = "; ".join(f"{many} {seconds:.3f} s {memory:.0f} MB" for many, seconds, memory, _, _ in found)
    print(f"{name} at {width}: {deletes[4]}, {deletes[3]} deletions: {shown}", flush=True)
    if deletes[0]:
        print(f"    check: {deletes_check}; with --keep {keeps_check}", flush=True)
    return found


def ring(program, parts, seed):
    words = (str(parts), "3", str(seed))
    subprocess.run([sys.executable, os.path.join(HERE, "make_rings.py"), "p", *words], check=True)
    return measured(program, 6, f"ring {' '.join(words)}")


def large(program, seed, width):
    """Ten thousand nets on an array of 100 by 100."""
    subprocess.run([program, "gen", str(seed), "100", "10000", "p"], check=True, stdout=subprocess.DEVNULL)
    return measured(program, width, f"gen {seed} 100 10000")


def summed(name, rows):
    for k, what in enumerate(("deletes", "keeps", "minisat -no-pre -no-elim", "minisat")):
        many, seconds, memory = (mean([found[k][of] for found in rows]) for of in range(3))
        first = [mean([found[0][of] for found in rows]) for of in range(3)]
        print(f"{name}, {what}: {many:.0f} conflicts, {seconds:.3f} s, {memory:.0f} MB; of these the first takes "
              f"{first[0] / max(many, 1e-3):.2f}, {first[1] / max(seconds, 1e-3):.2f}, {first[2] / max(memory, 1e-3):.2f}")


def main():
    program = os.path.abspath(sys.argv[1])
    rings = int(sys.argv[2]) if len(sys.argv) > 2 else 30
    with tempfile.TemporaryDirectory() as folder:
        os.chdir(folder)
        rows = [ring(program, PARTS[k % 3], 20 + k // 3) for k in range(rings)]
        for first, parts in enumerate(PARTS[: len(rows)]):
            summed(f"rings of {parts} parts", rows[first :: len(PARTS)])
        summed("rings", rows)
        summed("large", [large(program, seed, width) for seed in (1, 2) for width in (7, 8, 10)])
        os.chdir("/")


main()
