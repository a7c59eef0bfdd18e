#!/usr/bin/env python3
"""Reckons how many steps refute a width by counting: python3 bench/counted.py ROUTE WIDTH..

Reads a global route alone and takes switch blocks to be subset ones. Prints for each width the number of steps, and of
the clauses that they delete, or that it is not counted out. It shares no code with the router, and is what the cases of
crates/rows/data/problems/count.rows were worked out with."""
import sys
from math import comb

from asked import answer_help
from crowds import Crowds

answer_help(__name__, __doc__)


def counting_down(tracks):
    """The steps from one slot more than tracks that want different ones, down to the empty clause."""
    first = tracks + 1 + comb(tracks + 1, 2) * tracks
    return first + 1 + sum(4 * t * (t - 1) + 2 * comb(t, 2) * (t - 1) + t + 1 for t in range(2, tracks + 1))


class Ways:
    """How the slots of a route are come to from the first slots of their trees."""

    def __init__(self, crowds):
        self.slots, self.roots, self.before = crowds.slots, crowds.roots, {}
        for a, b in crowds.steps:
            if a != b:
                self.before.setdefault(max(a, b), min(a, b))

    def cells(self, root):
        return {self.slots[s][1:]: s for s in range(len(self.slots)) if self.roots[s] == root}

    def meeting(self, lower, higher):
        """The last slot of the lower tree whose cell the higher one takes, with that one's."""
        ours, theirs = self.cells(lower), self.cells(higher)
        return max((s, theirs[cell]) for cell, s in ours.items() if cell in theirs)

    def on_the_way(self, row):
        """The slots on the ways to where each two trees meet that are come to by more than one step."""
        found = {slot for at, higher in enumerate(row) for lower in row[:at] for slot in self.meeting(lower, higher)}
        for slot in sorted(found, reverse=True):
            while slot in self.before:
                slot = self.before[slot]
                found.add(slot)
        return [slot for slot in found if self.before.get(slot) in self.before]


def steps(crowds, crowd, width):
    """How many steps there are, and how many of them delete: behind each level but the last, and behind the ways."""
    if any(width < len(trees) for trees in crowds.cells.values()):
        return counting_down(width), width - 1
    if len(crowd) <= width:
        return None
    led = len(Ways(crowds).on_the_way(crowd[: width + 1]))
    return (counting_down(width) + width * led + 1, width) if led else (counting_down(width), width - 1)


def said(crowds, crowd, width):
    found = steps(crowds, crowd, width)
    if found is None:
        return "not counted out"
    count, deletions = found
    # What stays are two slots on one track, as three clauses, and the empty clause.
    return f"{count} steps, {count - deletions - 4} clauses deleted"


def main():
    crowds = Crowds(sys.argv[1])
    crowd = crowds.crowd()
    for width in map(int, sys.argv[2:]):
        print(f"{width}: {said(crowds, crowd, width)}")


main()
