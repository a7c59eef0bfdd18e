#!/usr/bin/env python3
"""Measures how many tracks placements need, from both sides, and beside another router.

    measure_least.py FOLDER [CIRCUIT ..] [--boxes all|half|quarter] [--beside PROGRAM] [--seconds N] [--kept FILE]
                     [--router PROGRAM] [--table]

FOLDER has the placements of bench/make_circuits, with or without routes (--cells). Each placement is taken with
subset, Wilton and universal switch blocks, and with boxes that open all tracks, one half of them, and a quarter at
inputs with one half at outputs, there with --free. As `least` does, `global` goes up from the width that `bound`
says, to the first with a route or to 16: a run that takes more than N seconds (20) of user and system time is
stopped, and counts as one that found nothing. Each file that is written is judged.

The other router goes up from the same width in turn with it. It is called as PROGRAM ARCH NET PLACE WIDTH ROUTED,
ends with 0 where it has written a routed file, which is judged too, and with another status where it found none.

FILE (measured.txt) keeps a line for each run, and what stands there is not run again, so that what was stopped goes
on. At the end, or at once with --table, what it has is printed as a table in Markdown for each kind of boxes: the
bound, and for each kind of switch blocks the least width of this program and of the other router, in brackets the
seconds of the run that routes, and of all; and then geometric means of ratios.
"""
import argparse
import itertools
import math
import os
import re
import resource
import subprocess
import sys
import tempfile

HERE = os.path.dirname(os.path.abspath(__file__))
BUILT = os.path.join(HERE, "..", "crates", "router", "out", "router")
MOST_WIDTH = 16
BLOCKS = ("subset", "wilton", "universal")
BOXES = {"all": ("1", "1"), "half": ("0.5", "0.5"), "quarter": ("0.25", "0.5")}  # of inputs, of outputs
FREE = ("quarter",)
OURS, OTHER = "gafkelam", "beside"


class Run:
    """What a program printed, how it ended and the seconds that it took; stopped after so many."""

    def __init__(self, words, seconds):
        def limit():
            resource.setrlimit(resource.RLIMIT_CPU, (seconds, seconds + 1))
        child = subprocess.Popen(words, stdout=subprocess.PIPE, stderr=subprocess.DEVNULL, text=True,
                                 preexec_fn=limit)
        self.lines = child.stdout.read().split("\n")[:-1]
        _, status, usage = os.wait4(child.pid, 0)
        child.returncode = self.status = os.waitstatus_to_exitcode(status)
        self.seconds = usage.ru_utime + usage.ru_stime


class Kept:
    """The lines of what was run: a problem, a router, a width, what it answered and its seconds."""

    def __init__(self, name):
        self.name = name
        self.answers = {}
        if os.path.exists(name):
            for line in open(name):
                if not line.startswith("#"):
                    *key, answer, seconds = line.split()
                    self.answers[tuple(key)] = answer, float(seconds)

    def get(self, key, run):
        """What is kept of a run, or what it says now, and its seconds."""
        if key not in self.answers:
            answer, seconds = self.answers[key] = run()
            with open(self.name, "a") as out:
                print(*key, answer, f"{seconds:.2f}", file=out)
        return self.answers[key]


class Problem:
    """A placement with switch blocks and boxes, as files in a folder to write in."""

    def __init__(self, asked, name, switch, boxes, desk):
        self.asked = asked
        self.key = name, switch, boxes
        self.is_free = boxes in FREE
        self.files = [os.path.join(desk, f"{name}.{ending}") for ending in ("arch", "net", "place")]
        self.routed = os.path.join(desk, "out.route")
        for file in self.files:
            with open(os.path.join(asked.folder, os.path.basename(file))) as there, open(file, "w") as out:
                text = there.read()
                out.write(with_fabric(text, switch, *BOXES[boxes]) if file.endswith(".arch") else text)

    def call(self, command, *words):
        return Run([self.asked.router, command, *self.files, *words], self.asked.seconds)

    def bound(self):
        run = self.call("bound")
        if run.status != 0:
            sys.exit(f"{self.key}: bound ended with status {run.status}")
        return run.lines[-1].split()[1], run.seconds

    def ours(self, width):
        options = ["--free"] if self.is_free else []
        return self.judged(self.call("global", str(width), self.routed.removesuffix(".route"), *options), width, {0})

    def other(self, width):
        words = [self.asked.beside, *self.files, str(width), self.routed]
        return self.judged(Run(words, self.asked.seconds), width, None)

    def judged(self, run, width, known):
        """What a run answered, and its seconds: a file that it wrote is judged."""
        if run.status == 0:
            strict = ["--strict"] if known and not self.is_free else []
            said = self.call("judge", str(width), self.routed, *strict).lines
            if said != ["legal"]:
                sys.exit(f"{self.key} at {width}: judge said {said} of {run.lines}")
            return "routed", run.seconds
        if run.status < 0:
            return "stopped", run.seconds
        if known and run.status > 2:
            sys.exit(f"{self.key} at {width}: global ended with status {run.status}")
        return "no_way" if run.status == 1 and known else "none", run.seconds


def with_fabric(text, switch, inputs, outputs):
    """An architecture text with other switch blocks and boxes."""
    text = re.sub(r"(?m)^switch_block_type \w+", f"switch_block_type {switch}", text)
    text = re.sub(r"(?m)^Fc_input \S+", f"Fc_input {inputs}", text)
    return re.sub(r"(?m)^Fc_output \S+", f"Fc_output {outputs}", text)


def climb(kept, problem, bound, router, at_width):
    """Goes up from the bound to the first width that routes."""
    for width in range(bound, MOST_WIDTH + 1):
        answer, _ = kept.get((*problem.key, router, str(width)), lambda: at_width(width))
        if answer == "routed":
            return


def measure(kept, problem):
    bound, _ = kept.get((*problem.key, "bound", "-"), problem.bound)
    climb(kept, problem, int(bound), OURS, problem.ours)
    if problem.asked.beside:
        climb(kept, problem, int(bound), OTHER, problem.other)


def found(kept, key, router):
    """The width that a router came to, the seconds of that run and of all; or none of these."""
    runs = sorted((int(width), *answer) for (*at, by, width), answer in kept.answers.items()
                  if tuple(at) == key and by == router)
    if not runs or runs[-1][1] != "routed":
        return None
    return runs[-1][0], runs[-1][2], sum(seconds for *_, seconds in runs)


def cell(came):
    return "-" if came is None else f"{came[0]} ({came[1]:.2f}, {came[2]:.1f})"


def mean(ratios):
    return math.exp(sum(map(math.log, ratios)) / len(ratios))


def rows_of(kept, boxes):
    """For each circuit that is kept with these boxes its bound, and what both routers came to by switch blocks."""
    bounds = {key[0]: answer for key, (answer, _) in kept.answers.items() if key[2:4] == (boxes, "bound")}
    for name in sorted(bounds):
        keys = [(name, switch, boxes) for switch in BLOCKS]
        yield name, bounds[name], [(found(kept, key, OURS), found(kept, key, OTHER)) for key in keys]


def print_table(kept):
    for boxes in BOXES:
        pairs = []
        print(f"\nboxes: {boxes}\n\n| circuit | bound | " + " | ".join(f"{switch} | other" for switch in BLOCKS) + " |")
        print("|---" * (2 + 2 * len(BLOCKS)) + "|")
        for name, bound, came in rows_of(kept, boxes):
            print(f"| {name} | {bound} | " + " | ".join(cell(one) for both in came for one in both) + " |")
            pairs += [both for both in came if all(both)]
        if pairs:
            print_means(pairs)


def print_means(pairs):
    less = sum(ours[0] < other[0] for ours, other in pairs)
    more = sum(ours[0] > other[0] for ours, other in pairs)
    width = mean([ours[0] / other[0] for ours, other in pairs])
    one, whole = (mean([max(ours[at], 0.01) / max(other[at], 0.01) for ours, other in pairs]) for at in (1, 2))
    print(f"\nof {len(pairs)} which both route {less} with fewer tracks, {more} with more; means of tracks {width:.2f}, of the "
          f"seconds of the run that routes {one:.2f}, of all {whole:.2f}")


def words():
    parser = argparse.ArgumentParser(description=__doc__, formatter_class=argparse.RawDescriptionHelpFormatter)
    parser.add_argument("folder", metavar="FOLDER")
    parser.add_argument("circuits", metavar="CIRCUIT", nargs="*")
    parser.add_argument("--boxes", choices=BOXES, action="append")
    parser.add_argument("--beside", metavar="PROGRAM")
    parser.add_argument("--seconds", type=int, default=20, metavar="N")
    parser.add_argument("--kept", default="measured.txt", metavar="FILE")
    parser.add_argument("--router", default=BUILT, metavar="PROGRAM")
    parser.add_argument("--table", action="store_true")
    asked = parser.parse_args()
    asked.boxes = asked.boxes or list(BOXES)
    return asked


def main():
    asked = words()
    kept = Kept(asked.kept)
    if not asked.table:
        names = asked.circuits or sorted(name[:-6] for name in os.listdir(asked.folder) if name.endswith(".place"))
        with tempfile.TemporaryDirectory() as desk:
            for boxes, name, switch in itertools.product(asked.boxes, names, BLOCKS):
                measure(kept, Problem(asked, name, switch, boxes, desk))
    print_table(kept)


if __name__ == "__main__":
    main()
