#!/usr/bin/env python3
"""Prints the clauses of a routing within a reach, in plain definitions over lists.

    reach_clauses.py ARCH NET PLACE ROUTE WIDTH REACH

prints what `encode --reach REACH` is to write, from the text of docs/FORMATS.md. It reads the four texts as
judge.py does, shares nothing with the router, and is slow.
"""
import sys

from judge import Elem, Problem, are_joined, opened, touched
from asked import answer_help

answer_help(__name__, __doc__)


def slots_of(problem):
    """Each cell of each net that is not global, once: the number of the net and the cell."""
    slots = []
    for n, net in enumerate(problem.route.nets):
        for e in net.elems:
            slot = (n, e.at()[:2])
            if e.is_channel() and not net.is_global and slot not in slots:
                slots.append(slot)
    return slots


def outs(net):
    """The OPIN lines of a net."""
    return [e for e in net.elems if e.kind == "OPIN" and not net.is_global]


def ins(net):
    """For each SINK line of a net the IPIN line before it."""
    if net.is_global:
        return []
    return [before for before, e in zip(net.elems, net.elems[1:]) if e.kind == "SINK" and before.kind == "IPIN"]


def wire(slot, track):
    kind, place = slot[1]
    return Elem(0, kind, place, "Track", track)


class Clauses:
    def __init__(self, problem, width, reach):
        self.problem, self.width, self.reach = problem, width, reach
        self.slots = slots_of(problem)
        self.wires = [(s, t) for s in range(len(self.slots)) for t in range(width)]

    def uses(self, s, t):
        return s * self.width + t + 1

    def reached(self, s, t, d):
        wires = len(self.slots) * self.width
        return wires + (s * self.width + t) * (self.reach + 1) + d + 1

    def is_at(self, pin, s, t):
        """Whether the pin touches the cell of slot s and opens the track there."""
        cells = touched(self.problem, pin)
        return self.slots[s][1] in cells and t in opened(self.problem, self.width, pin)

    def near(self, s, t):
        """The slots of the same net and tracks whose wire is joined to that of slot s and track t."""
        here = wire(self.slots[s], t)
        return [
            (r, u)
            for r, u in self.wires
            if self.slots[r][0] == self.slots[s][0]
            and are_joined(self.problem, self.width, wire(self.slots[r], u), here)
        ]

    def sinks(self):
        for n, net in enumerate(self.problem.route.nets):
            for pin in ins(net):
                yield [
                    self.reached(s, t, self.reach)
                    for s, t in self.wires
                    if self.slots[s][0] == n and self.is_at(pin, s, t)
                ]

    def starts(self):
        for s, t in self.wires:
            pins = outs(self.problem.route.nets[self.slots[s][0]])
            if not any(self.is_at(pin, s, t) for pin in pins):
                yield [-self.reached(s, t, 0)]

    def used(self):
        for s, t in self.wires:
            for d in range(self.reach + 1):
                yield [-self.reached(s, t, d), self.uses(s, t)]

    def stays(self):
        for s, t in self.wires:
            for d in range(1, self.reach + 1):
                yield [-self.reached(s, t, d - 1), self.reached(s, t, d)]

    def comes(self):
        for s, t in self.wires:
            near = self.near(s, t)
            for d in range(1, self.reach + 1):
                yield [
                    -self.reached(s, t, d),
                    self.reached(s, t, d - 1),
                    *(self.reached(r, u, d - 1) for r, u in near),
                ]

    def rivals(self):
        for a, (net, cell) in enumerate(self.slots):
            for b, (other, there) in enumerate(self.slots):
                if a < b and net != other and cell == there:
                    for t in range(self.width):
                        yield [-self.uses(a, t), -self.uses(b, t)]

    def all(self):
        for family in (self.sinks, self.starts, self.used, self.stays, self.comes, self.rivals):
            yield from family()

    def text(self):
        clauses = [" ".join(map(str, clause + [0])) for clause in self.all()]
        variables = len(self.slots) * self.width * (self.reach + 2)
        return "\n".join([f"p cnf {variables} {len(clauses)}", *clauses]) + "\n"


def main():
    texts = []
    for name in sys.argv[1:5]:
        with open(name, encoding="ascii") as file:
            texts.append(file.read())
    width, reach = int(sys.argv[5]), int(sys.argv[6])
    sys.stdout.write(Clauses(Problem(*texts), width, reach).text())


if __name__ == "__main__":
    main()
