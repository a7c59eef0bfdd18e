#!/usr/bin/env python3
"""Counts the clauses of a problem whose tracks are kept in order: python3 bench/ordered.py ROUTE WIDTH [universal].

Reads a global route alone and takes switch blocks to be subset ones, or universal ones, and connection boxes to open
every track. Prints the head of the CNF file and the clauses behind those without an order. It shares no code with the
router, and is what the cases of crates/rows/data/cases/symmetry.rows were worked out with."""
import sys

from crowds import Crowds
from asked import answer_help

answer_help(__name__, __doc__)


def groups(width, pattern):
    if pattern == "subset":
        return [[track] for track in range(width)]
    return [[track, width - 1 - track] for track in range(width // 2)]


def order(row, width, pattern):
    """The clauses that the slots of a row come to the groups of tracks in their order."""
    def has(slot, track):
        return slot * width + track + 1

    def only_behind(slot, track, earlier, group):
        return [-has(slot, track)] + [has(other, there) for other in earlier for there in group]

    for at, slot in enumerate(row):
        before = []
        for group in groups(width, pattern):
            if before:
                yield from (only_behind(slot, track, row[:at], before) for track in group)
            yield from (only_behind(slot, track, row[:at], group) for track in group[1:])
            before = group


def main():
    route, width = sys.argv[1], int(sys.argv[2])
    pattern = sys.argv[3] if len(sys.argv) > 3 else "subset"
    crowds = Crowds(route)
    joined = {frozenset(step) for step in crowds.steps if step[0] != step[1]}
    rivals = sum(
        len(trees) * (len(trees) - 1) // 2 for trees in crowds.cells.values()
    )
    clauses = list(order(crowds.crowd(), width, pattern))
    count = len(crowds.slots) * (1 + width * (width - 1) // 2) + (len(joined) + rivals) * width
    print(f"p cnf {len(crowds.slots) * width} {count + len(clauses)}")
    for clause in clauses:
        print(*clause, 0)


main()
