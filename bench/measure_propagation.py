#!/usr/bin/env python3
"""Compares how many literals the built program and `minisat` propagate a second, on the same clauses.

    measure_propagation.py [PROGRAM]

Without a word the program is the one of this checkout. The clauses, ten thousand to a million, are those of meshes
(make_design.py) and rings (make_rings.py). Prints for each problem its clauses, and of both searches the conflicts,
the literals that were taken from the queue, how many these are a second, and how the rates stand to each other; at
the end the geometric mean of that.

The time of the program is that of `route` less that of `encode`; that of `minisat`, which does not preprocess, leaves
out what it says of its parsing, and ends after LIMIT seconds. The program does not count: `valgrind` runs it once more
and counts each instruction of `propagate`. Of its calls those without a conflict end at the test of the loop, so the
body has run as often as the test, less as often as these; of the counts that fit, that of the most instructions is taken.
"""
import collections
import math
import os
import re
import resource
import subprocess
import sys
import tempfile
from asked import answer_help

answer_help(__name__, __doc__)

HERE = os.path.dirname(os.path.abspath(__file__))
BUILT = os.path.join(HERE, "..", "crates", "router", "out", "router")
FOUR = [f"p.{ending}" for ending in ("arch", "net", "place", "route")]
LIMIT = 20  # seconds that minisat searches at most

# The maker, its words, the width, and the clauses that are learned at most.
PROBLEMS = [
    ("make_design.py", ("8", "subset", "1", "0.9", "2"), 6, 20000),
    ("make_design.py", ("12", "subset", "1", "0.9", "2"), 7, 20000),
    ("make_design.py", ("12", "wilton", "1", "0.9", "1"), 8, 20000),
    ("make_design.py", ("20", "subset", "1", "0.9", "1"), 9, 5000),
    ("make_design.py", ("30", "wilton", "1", "0.9", "1"), 10, 1000),
    ("make_rings.py", ("9", "5", "1"), 9, 20000),
    ("make_rings.py", ("15", "6", "1"), 12, 20000),
    ("make_rings.py", ("31", "8", "1"), 16, 20000),
    ("make_rings.py", ("75", "8", "1"), 16, 10000),
    ("make_rings.py", ("199", "8", "1"), 16, 5000),
]


def run(words):
    """The seconds of user and system time of a run, and what it says."""
    before = resource.getrusage(resource.RUSAGE_CHILDREN)
    said = subprocess.run(words, stdout=subprocess.PIPE, stderr=subprocess.DEVNULL, text=True).stdout
    after = resource.getrusage(resource.RUSAGE_CHILDREN)
    return after.ru_utime - before.ru_utime + after.ru_stime - before.ru_stime, said


def least(words, times=3):
    return min(run(words)[0] for _ in range(times))


def conflicts(words):
    """How many clauses the log of a run adds."""
    if os.path.exists("found.lrat"):
        os.remove("found.lrat")
    run(words)
    if not os.path.exists("found.lrat"):
        return None
    with open("found.lrat", "rb") as log:
        return sum(1 for line in log if line.split(b" ", 2)[1] != b"d")


def counted(words):
    """How often each instruction of `propagate` runs, and how often it is called."""
    tool = ["--tool=callgrind", "--callgrind-out-file=counts", "--dump-instr=yes", "--dump-line=no"]
    run(["valgrind", *tool, "--compress-pos=no", "--compress-strings=no", *words])
    instructions, calls = collections.Counter(), 0
    is_inside = is_called = False
    with open("counts", encoding="utf-8") as lines:
        for line in lines:
            if line.startswith("fn="):
                is_inside = "Watches::propagate" in line
            elif line.startswith("cfn="):
                is_called = "Watches::propagate" in line
            elif line.startswith("calls="):
                calls += int(line[6:].split()[0]) if is_called else 0
                next(lines)
            elif is_inside and line.startswith("0x"):
                address, count = line.split()[:2]
                instructions[address] += int(count)
    return collections.Counter(instructions.values()), calls


def propagated(words, learned):
    """How many literals were taken from the queue."""
    counts, calls = counted(words)
    for without in (calls - learned, calls - learned - 1, calls - learned + 1):
        bodies = [count for count in counts if without > 0 and count + without in counts]
        if bodies:
            return max(bodies, key=counts.get)
    sys.exit("the loop of `propagate` is not found")


def minisat():
    """The conflicts and propagations of `minisat`, and its seconds without its parsing."""
    _, said = run(["minisat", "-no-pre", "-no-elim", f"-cpu-lim={LIMIT}", "p.cnf"])

    def told(name):
        return float(re.search(name + r"\s*:\s*([0-9.]+)", said).group(1))

    return int(told("conflicts")), int(told("propagations")), told("CPU time") - told("Parse time")


def measured(program, maker, kind, width, budget):
    subprocess.run([sys.executable, os.path.join(HERE, maker), "p", *kind], check=True)
    route = [program, "route", *FOUR, str(width), "found", "--conflicts", str(budget)]
    encode = [program, "encode", *FOUR, str(width), "p"]
    encoding = least(encode)
    with open("p.cnf", encoding="ascii") as text:
        clauses = int(text.readline().split()[3])
    name = f"{maker[5:-3]} {' '.join(kind)} at {width}"
    learned = conflicts(route)
    if learned is None:
        print(f"{name}: {clauses} clauses, routed: how many conflicts that took is not told", flush=True)
        return None
    seconds = max(least(route) - encoding, 0.001)
    ours = propagated(route, learned)
    met, theirs, their_seconds = minisat()
    rates = ours / seconds, theirs / max(their_seconds, 0.001)
    print(
        f"{name}: {clauses} clauses; {learned} conflicts, {ours} literals, {rates[0]:.0f} a second; "
        f"minisat {met} conflicts, {theirs} literals, {rates[1]:.0f} a second; ratio {rates[0] / rates[1]:.2f}",
        flush=True,
    )
    return rates[0] / rates[1]


def main():
    program = os.path.abspath(sys.argv[1] if len(sys.argv) > 1 else BUILT)
    with tempfile.TemporaryDirectory() as folder:
        os.chdir(folder)
        ratios = [measured(program, *problem) for problem in PROBLEMS]
        os.chdir("/")
    ratios = [ratio for ratio in ratios if ratio]
    print(f"{len(ratios)} problems: {math.exp(sum(map(math.log, ratios)) / len(ratios)):.2f} in the mean")


main()
