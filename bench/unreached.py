#!/usr/bin/env python3
"""Says which ordinary net of a placed netlist no wires reach, from plain definitions and net by net.

    unreached.py ARCH NET PLACE WIDTH..

prints for each width the first net, by number, with a sink that no way over wires leads to from its driver, whatever
the other nets have, and the first such sink, by number; or that each is reached. It reads the texts and has the fabric
as `judge.py` does, shares nothing with the program, and is slow.
"""
import sys
from types import SimpleNamespace

from asked import answer_help
import judge

answer_help(__name__, __doc__)


class Placed:
    """A placed netlist at a width: what each wire is joined to, and which wires a terminal opens."""

    def __init__(self, texts, width):
        self.arch = judge.Arch(texts[0])
        self.netlist = judge.Netlist(texts[1], self.arch)
        self.placement = judge.Placement(texts[2], self.netlist)
        self.route = SimpleNamespace(size=self.placement.size)  # where `judge` looks for the array
        self.width = width
        self.joints = {}
        self.join_all()

    def has(self, cell):
        (kind, (x, y)), (nx, ny) = cell, self.placement.size
        return 1 <= x <= nx and 0 <= y <= ny if kind == "CHANX" else 0 <= x <= nx and 1 <= y <= ny

    def join_all(self):
        nx, ny = self.placement.size
        for i in range(nx + 1):
            for j in range(ny + 1):
                sides = {side: cell for side, cell in judge.cells_at(i, j).items() if self.has(cell)}
                for start, one in sides.items():
                    for end, other in sides.items():
                        if start != end:
                            self.join(start, one, end, other)

    def join(self, start, one, end, other):
        for track in range(self.width):
            to = judge.mapped(self.arch.pattern, self.width, start, end, track)
            self.joints.setdefault((one, track), []).append((other, to))

    def pins(self, terminal):
        place, label, number = terminal
        if label == "Pad":
            return [SimpleNamespace(place=place, label="Pad", number=number)]
        return [SimpleNamespace(place=place, label="Pin", number=pin)
                for pin, (of, _, is_global, _) in enumerate(self.arch.pins) if of == number and not is_global]

    def opened(self, terminal):
        return {(cell, track) for pin in self.pins(terminal) for cell in judge.touched(self, pin) if self.has(cell)
                for track in judge.opened(self, self.width, pin)}

    def reached(self, wires):
        """All wires that a way leads to from these."""
        found, ahead = set(wires), list(wires)
        while ahead:
            for wire in self.joints.get(ahead.pop(), []):
                if wire not in found:
                    found.add(wire)
                    ahead.append(wire)
        return found

    def terminal(self, ref):
        return judge.Problem.terminal(self, ref)

    def unreached(self):
        for number, (is_global, driver, sinks) in enumerate(self.netlist.nets.values()):
            if is_global:
                continue
            found = self.reached(self.opened(self.terminal(driver))) if driver else set()
            for k, sink in enumerate(sinks):
                if not found & self.opened(self.terminal(sink)):
                    return number, k
        return None


def said(texts, width):
    found = Placed(texts, width).unreached()
    return f"{width}: " + ("each is reached" if found is None else f"net {found[0]} sink {found[1]}")


def main():
    texts = [open(name, encoding="utf-8").read() for name in sys.argv[1:4]]
    for width in sys.argv[4:]:
        print(said(texts, int(width)))


if __name__ == "__main__":
    main()
