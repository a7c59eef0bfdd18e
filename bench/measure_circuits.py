#!/usr/bin/env python3
"""Routes circuits at the widths round the least one, beside minisat and cadical on the same clauses.

    measure_circuits.py FOLDER [CIRCUIT ..] [--switch PATTERN] [--boxes SHARE] [--seconds N] [--router PROGRAM]

FOLDER has the files of bench/make_circuits --cells. Each circuit is routed with as many tracks as its
fullest cell has nets, with one more and so on, up to the first width that is routed; there is no routing
with fewer. The rows, in Markdown, begin at the last refuted width before one that is open or routed. Each
answer is checked: a routing by `verify`, a refutation by `check`, and that no two programs say opposite
things. Times are user and system time, of the router with files and log, and a run that takes more than N
seconds (60) is stopped.
"""
import argparse
import os
import re
import resource
import subprocess
import sys
import tempfile

HERE = os.path.dirname(os.path.abspath(__file__))
BUILT = os.path.join(HERE, "..", "crates", "router", "out", "router")
ENDINGS = ("arch", "net", "place", "route")
MOST_WIDTH = 64
SOLVERS = {"minisat": ["minisat", "-verb=0"], "cadical": ["cadical", "-q", "-n"]}
SAID = {10: "routed", 20: "refuted"}  # by the statuses of solvers


class Run:
    """What a program printed, how it ended and the seconds that it took; stopped after so many."""

    def __init__(self, words, seconds):
        def limit():
            resource.setrlimit(resource.RLIMIT_CPU, (seconds, seconds + 1))
        child = subprocess.Popen(words, stdout=subprocess.PIPE, stderr=subprocess.DEVNULL, text=True,
                                 preexec_fn=limit)
        self.said = child.stdout.read()
        _, status, usage = os.wait4(child.pid, 0)
        child.returncode = self.status = os.waitstatus_to_exitcode(status)
        self.seconds = usage.ru_utime + usage.ru_stime
        self.is_stopped = self.status < 0


class Circuit:
    """A circuit's four files, with the switch blocks and boxes that are asked for, in a folder to write in."""

    def __init__(self, folder, name, asked, desk):
        self.name = name
        self.asked = asked
        self.files = [os.path.join(folder, f"{name}.{ending}") for ending in ENDINGS]
        self.out = os.path.join(desk, name)
        self.files[0] = self.with_arch(self.files[0])
        self.nets, self.loads = self.counts()

    def with_arch(self, name):
        """The architecture with its pattern and shares replaced."""
        text = open(name).read()
        if self.asked.switch:
            text = re.sub(r"(?m)^switch_block_type \w+", f"switch_block_type {self.asked.switch}", text)
        if self.asked.boxes:
            text = re.sub(r"(?m)^(Fc_(?:in|out)put) \S+", rf"\1 {self.asked.boxes}", text)
        with open(self.out + ".arch", "w") as out:
            out.write(text)
        return self.out + ".arch"

    def counts(self):
        """How many ordinary nets there are, and how many of them each cell has."""
        nets, loads, cells = 0, {}, set()
        for line in open(self.files[3]):
            words = line.split()
            if words[:1] == ["Net"]:
                nets += len(words) == 3
                cells = set()
            elif words and words[0].startswith("CHAN") and (words[0], words[1]) not in cells:
                cells.add((words[0], words[1]))
                loads[words[0], words[1]] = loads.get((words[0], words[1]), 0) + 1
        return nets, loads

    def blocks(self):
        return sum(line.startswith(".clb ") for line in open(self.files[1]))

    def most(self):
        return max(self.loads.values())

    def route(self, width):
        """The router's answer at a width, checked, and its seconds."""
        run = Run([self.asked.router, "route", *self.files, str(width), self.out], self.asked.seconds)
        if run.status == 0:
            self.agree("legal", "verify", *self.files, str(width), self.out + ".route")
            return "routed", run
        if run.status == 1:
            self.agree("accepted", "check", self.out + ".cnf", self.out + ".lrat")
            return "refuted", run
        if not run.is_stopped and run.status != 2:
            sys.exit(f"{self.name} at {width}: the router ended with status {run.status}")
        return "open", run

    def agree(self, wanted, *words):
        said = Run([self.asked.router, *words], 3600).said.strip()
        if said != wanted:
            sys.exit(f"{self.name}: {' '.join(words)} said {said}, not {wanted}")

    def solve(self, width):
        """For each solver its answer on the clauses of a width, and its seconds."""
        Run([self.asked.router, "encode", *self.files, str(width), self.out], 3600)
        answers = {}
        for solver, words in SOLVERS.items():
            run = Run([*words, self.out + ".cnf"], self.asked.seconds)
            answers[solver] = (SAID.get(run.status, "open"), run)
        return answers

    def clauses(self):
        with open(self.out + ".cnf") as clauses:
            return int(clauses.readline().split()[3])


def seconds_of(answer, run):
    """A cell of the table: the seconds, or that the run ended after so many without an answer."""
    return f"> {run.seconds:.0f}" if answer == "open" else f"{run.seconds:.2f}"


def one_answer(name, width, answers):
    """What is known of a width: the answers of all programs, which may not differ but by being open."""
    found = {answer for answer in answers if answer != "open"}
    if len(found) > 1:
        sys.exit(f"{name} at {width}: {answers}")
    return found.pop() if found else "open"


def rows(circuit):
    """The rows of a circuit, from the last width that was refuted at once on to the first routed one."""
    before = None
    for width in range(circuit.most(), MOST_WIDTH + 1):
        answer, run = circuit.route(width)
        solved = circuit.solve(width)
        known = one_answer(circuit.name, width, [answer] + [other for other, _ in solved.values()])
        cells = [circuit.name, width, f"{circuit.clauses():,}", known, seconds_of(answer, run)]
        cells += [seconds_of(other, solver) for other, solver in solved.values()]
        row = "| " + " | ".join(map(str, cells)) + " |"
        if answer == "refuted":
            before = row
            continue
        if before:
            yield before
        before = None
        yield row
        if answer == "routed":
            return


def words():
    parser = argparse.ArgumentParser(description=__doc__, formatter_class=argparse.RawDescriptionHelpFormatter)
    parser.add_argument("folder", metavar="FOLDER")
    parser.add_argument("circuits", metavar="CIRCUIT", nargs="*")
    parser.add_argument("--switch", choices=("subset", "wilton", "universal"))
    parser.add_argument("--boxes", metavar="SHARE")
    parser.add_argument("--seconds", type=int, default=60, metavar="N")
    parser.add_argument("--router", default=BUILT, metavar="PROGRAM")
    return parser.parse_args()


def main():
    asked = words()
    names = asked.circuits or sorted(name[:-6] for name in os.listdir(asked.folder) if name.endswith(".route"))
    print("| circuit | width | clauses | | gafkelam | " + " | ".join(SOLVERS) + " |")
    print("|---" * (5 + len(SOLVERS)) + "|")
    with tempfile.TemporaryDirectory() as desk:
        for name in names:
            circuit = Circuit(asked.folder, name, asked, desk)
            for row in rows(circuit):
                print(row, flush=True)
            print(f"{name}: {circuit.blocks():,} blocks, {circuit.nets:,} nets, "
                  f"{sum(circuit.loads.values()):,} cells, at most {circuit.most()} nets in a cell",
                  file=sys.stderr, flush=True)


if __name__ == "__main__":
    main()
