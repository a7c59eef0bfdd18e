#!/usr/bin/env python3
"""How large the crowds of global routes are.

    crowds.py NAME.route..

prints for each route its slots, its trees, the trees of the crowd by the rule of `problem_facts` (a search from the
largest tree down, which begins with what is gathered from the fullest cell on), those of the crowd from the fullest
cell alone, and those of the largest one that a search of four seconds by chance finds. It shares nothing with the
program: sets of trees in place of marks, numbers in place of rows of bits, a recursion in place of a stack, and no
bound on the looks.
"""
import random
import sys
import time
from asked import answer_help

answer_help(__name__, __doc__)

LIMIT, TRACKS, MET, SECONDS = 128, 64, 4096, 4


def read(path):
    grid, nets = None, []
    for line in open(path):
        words = line.split()
        if not words:
            continue
        if words[0] == "Array":
            grid = int(words[2]), int(words[4])
        elif words[0] == "Net":
            nets.append([])
        elif words[0] in ("SOURCE", "OPIN", "IPIN", "SINK", "CHANX", "CHANY") and nets:
            x, y = words[1].strip("()").split(",")
            nets[-1].append((words[0], int(x), int(y)))
    return grid, nets


def slots_and_steps(nets):
    slots, numbers, steps = [], {}, []
    for net, trace in enumerate(nets):
        before = None
        for kind, x, y in trace:
            if not kind.startswith("CHAN"):
                before = None
                continue
            slot = net, kind, x, y
            if slot not in numbers:
                numbers[slot] = len(slots)
                slots.append(slot)
            if before is not None:
                steps.append((before, numbers[slot]))
            before = numbers[slot]
    return slots, steps


def roots_of(count, steps):
    reached = list(range(count))
    for a, b in steps:
        if reached[max(a, b)] == max(a, b):
            reached[max(a, b)] = min(a, b)
    for slot in range(count):
        reached[slot] = reached[reached[slot]]
    return reached


def gathered(trees, meets):
    taken = []
    for tree in trees:
        if len(taken) < LIMIT and all(tree in meets[other] for other in taken):
            taken.append(tree)
    return taken


def searched(meets):
    best, end = [], time.time() + SECONDS
    while time.time() < end:
        taken = random.sample(best, random.randint(0, len(best)))
        open_trees = set(meets)
        for tree in taken:
            open_trees &= meets[tree]
        while open_trees:
            tree = max(open_trees, key=lambda t: len(meets[t] & open_trees) + 3 * random.random())
            taken.append(tree)
            open_trees &= meets[tree]
        best = max(best, taken, key=len)
    return best


class Crowds:
    """The slots of a route, and for each tree those that it meets."""

    def __init__(self, path):
        (self.nx, self.ny), nets = read(path)
        self.slots, self.steps = slots_and_steps(nets)
        self.roots = roots_of(len(self.slots), self.steps)
        self.cells, self.size = {}, {}
        for number, (net, *cell) in enumerate(self.slots):
            self.cells.setdefault(tuple(cell), []).append(self.roots[number])
            self.size[self.roots[number]] = self.size.get(self.roots[number], 0) + 1
        self.meets = {root: set() for root in self.size}
        for trees in self.cells.values():
            for tree in trees:
                self.meets[tree].update(other for other in trees if self.slots[other][0] != self.slots[tree][0])

    def from_cell(self, cell):
        return gathered(self.cells[cell] + sorted(self.size), self.meets)

    def number_of(self, cell):
        kind, x, y = cell
        return y * self.nx + x - 1 if kind == "CHANX" else self.nx * (self.ny + 1) + (y - 1) * (self.nx + 1) + x

    def fullest(self):
        return min(self.cells, key=lambda cell: (-len(self.cells[cell]), self.number_of(cell)))

    def from_fullest(self):
        return self.from_cell(self.fullest()) if self.cells else []

    def longer_than(self, least):
        """The first of the longest crowds of more trees than these, in the order of the search."""
        order = sorted(self.size, key=lambda tree: (-self.size[tree], tree))
        place = {tree: at for at, tree in enumerate(order)}
        best = []

        def go_over(taken, rest):
            nonlocal best, least
            while rest and least < LIMIT:
                worth = [bit for bit in bits_of(rest) if len(taken) + (rest & rows[bit]).bit_count() >= least]
                if len(worth) < rest.bit_count():
                    rest = sum(1 << bit for bit in worth)
                    continue
                if len(taken) + len(worth) <= least:
                    return
                bit = worth[0]
                rest &= ~(1 << bit)
                if least <= len(taken):
                    best, least = taken + [larger[bit]], len(taken) + 1
                go_over(taken + [larger[bit]], rest & rows[bit])

        for tree in order:
            larger = sorted((other for other in self.meets[tree] if place[other] < place[tree]), key=place.get)
            if least < LIMIT and least <= len(larger) <= MET:
                spot = {other: at for at, other in enumerate(larger)}
                rows = [sum(1 << spot[far] for far in self.meets[other] if far in spot) for other in larger]
                go_over([tree], (1 << len(larger)) - 1)
        return best

    def crowd(self):
        first = self.from_fullest()
        if not self.cells or len(self.cells[self.fullest()]) > TRACKS:
            return first
        second = gathered(self.longer_than(len(first)) + sorted(self.size), self.meets)
        return max(first, second, key=len)


def bits_of(number):
    while number:
        low = number & -number
        yield low.bit_length() - 1
        number ^= low


def report(path):
    crowds = Crowds(path)
    print(f"{path}: {len(crowds.slots)} slots, {len(crowds.size)} trees, crowd {len(crowds.crowd())}, "
          f"from the fullest cell {len(crowds.from_fullest())}, by chance {len(searched(crowds.meets))}",
          flush=True)


if __name__ == "__main__":
    for name in sys.argv[1:]:
        report(name)
