#!/usr/bin/env python3
"""Compares the names of variables in a CNF file with its own count of them.

    named.py ROUTE WIDTH NAMED PLAIN

ROUTE is the global route that `encode` was given, NAMED what it wrote with `--names` at this width, and PLAIN what it
wrote without. Counts the slots of the route anew: each cell of each net that is not global, where it first stands. NAMED
is to begin with a line for each track of each slot, in their order, and to go on as PLAIN. Prints the first line that is
otherwise, and ends with 1 then. It shares no code with the router.
"""
import sys
from asked import answer_help

answer_help(__name__, __doc__)


def slots_of(route):
    """The slots of a route, each the name of a net and the words of a cell."""
    slots, nets = {}, 0
    for line in open(route, encoding="latin-1"):
        words = line.split("#")[0].split()
        if not words:
            continue
        if words[0] == "Net":
            is_global = len(words) > 3
            name = words[2][1:-1]
            nets += 1
        elif words[0] in ("CHANX", "CHANY") and not is_global:
            x, y = map(int, words[1].strip("()").split(","))
            slots.setdefault((nets, name, words[0], f"({x},{y})"))
    return [slot[1:] for slot in slots]


def names_of(slots, width):
    """The lines that name the variables."""
    variable = 0
    for net, kind, place in slots:
        for track in range(width):
            variable += 1
            yield f"c {variable} net {net} {kind} {place} track {track}\n"


def main():
    route, width, named, plain = sys.argv[1:]
    lines = open(named, encoding="latin-1")
    for due in names_of(slots_of(route), int(width)):
        came = lines.readline()
        if came != due:
            sys.exit(f"due {due!r}, came {came!r}")
    for number, due in enumerate(open(plain, encoding="latin-1"), 1):
        came = lines.readline()
        if came != due:
            sys.exit(f"line {number} behind the names: due {due!r}, came {came!r}")
    if lines.readline():
        sys.exit("more lines than those")


main()
