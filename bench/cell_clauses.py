#!/usr/bin/env python3
"""Writes the clauses over cells of a placed netlist, from plain definitions, and has a solver refute them.

    cell_clauses.py ARCH NET PLACE WIDTH [--window I J I J] [--out FILE] [--refute SECONDS]
    cell_clauses.py ARCH NET PLACE WIDTH --windows SIZE [--refute SECONDS]

prints how many nets, cells, variables and clauses the window has, which is that of the corners from (I,J) to (I,J), or
the whole array; FILE gets them in DIMACS, and with --refute minisat is run for so many seconds. With --windows each
window round SIZE by SIZE blocks is tried, with the corners round these blocks and one more on each side. Where a window
is refuted, no routing of the placement has so many tracks or fewer. It reads the texts and has the fabric as
`judge.py` does.
"""
import subprocess
import sys
import tempfile
import time

from asked import answer_help
from unreached import Placed
import judge

answer_help(__name__, __doc__)


class Fabric(Placed):
    """A placed netlist without tracks: its cells, and which of them meet."""

    def __init__(self, texts):
        super().__init__(texts, 1)
        nx, ny = self.placement.size
        self.cells = [("CHANX", (x, y)) for y in range(ny + 1) for x in range(1, nx + 1)]
        self.cells += [("CHANY", (x, y)) for y in range(1, ny + 1) for x in range(nx + 1)]
        self.meeting = {cell: {other for (other, _) in self.joints.get((cell, 0), [])} for cell in self.cells}
        self.terminals = {}
        self.nets = []  # driver and sinks of each ordinary net that has both
        for is_global, driver, sinks in self.netlist.nets.values():
            if not is_global and driver and sinks:
                self.nets.append((self.terminal(driver), [self.terminal(sink) for sink in sinks]))

    def reach(self, terminal):
        """For each pin of a terminal its number and the cells that it touches."""
        if terminal not in self.terminals:
            self.terminals[terminal] = [
                (0 if pin.label == "Pad" else pin.number, [c for c in judge.touched(self, pin) if self.has(c)])
                for pin in self.pins(terminal)]
        return self.terminals[terminal]


def corners(cell):
    kind, (x, y) = cell
    return [(x - 1, y) if kind == "CHANX" else (x, y - 1), (x, y)]


class Window:
    """The clauses of the corners from `low` to `high`."""

    def __init__(self, fabric, width, low, high):
        def is_corner(at):
            return low[0] <= at[0] <= high[0] and low[1] <= at[1] <= high[1]

        self.fabric, self.width, self.clauses = fabric, width, []
        self.cells = [c for c in fabric.cells if any(map(is_corner, corners(c)))]
        self.places = {cell: c for c, cell in enumerate(self.cells)}
        self.whole = [all(map(is_corner, corners(c))) for c in self.cells]
        self.nets = [net for net in fabric.nets if self.holds(net[0]) or any(map(self.holds, net[1]))]
        self.arrivals = [(k, at) for k, (_, sinks) in enumerate(self.nets) for at in sinks]
        self.pins = len(fabric.arch.pins) + 1
        self.uses = len(self.nets) * len(self.cells)
        self.tallies = (len(self.nets) + 1) * len(self.cells) * width
        self.vars = self.uses + self.tallies + len(self.arrivals) * self.pins
        self.add_ends()
        self.add_support()
        self.add_counts()

    def holds(self, terminal):
        return all(cell in self.places for _, cells in self.fabric.reach(terminal) for cell in cells)

    def use(self, k, c):
        return k * len(self.cells) + c + 1

    def tally(self, k, c, j):
        return self.uses + (k * len(self.cells) + c) * self.width + j + 1

    def entry(self, a, pin):
        return self.uses + self.tallies + a * self.pins + pin + 1

    def uses_some(self, k, cells):
        return [self.use(k, self.places[cell]) for cell in cells if cell in self.places]

    def add_ends(self):
        for k, (driver, _) in enumerate(self.nets):
            if self.holds(driver):
                reached = {cell for _, cells in self.fabric.reach(driver) for cell in cells}
                self.clauses.append(self.uses_some(k, sorted(reached)))
        earlier = {}
        for a, (k, at) in enumerate(self.arrivals):
            pins = self.fabric.reach(at)
            if self.holds(at):
                self.clauses.append([self.entry(a, pin) for pin, _ in pins])
                self.clauses += [[-self.entry(a, pin)] + self.uses_some(k, cells) for pin, cells in pins]
            for b in earlier.setdefault(at, []):
                self.clauses += [[-self.entry(b, pin), -self.entry(a, pin)] for pin, _ in pins]
            earlier[at].append(a)

    def add_support(self):
        for k, (driver, _) in enumerate(self.nets):
            reached = {cell for _, cells in self.fabric.reach(driver) for cell in cells}
            for c, cell in enumerate(self.cells):
                if self.whole[c] and cell not in reached:
                    self.clauses.append([-self.use(k, c)] + self.uses_some(k, sorted(self.fabric.meeting[cell])))

    def more_than(self, k, c, j):
        return [self.tally(k, c, j)] if j < self.width else []

    def add_counts(self):
        for k in range(len(self.nets)):
            for c in range(len(self.cells)):
                self.clauses.append([-self.use(k, c)] + self.more_than(k + 1, c, 0))
                for j in range(self.width):
                    self.clauses.append([-self.tally(k, c, j), self.tally(k + 1, c, j)])
                    self.clauses.append([-self.use(k, c), -self.tally(k, c, j)] + self.more_than(k + 1, c, j + 1))

    def write(self, file):
        file.write(f"p cnf {self.vars} {len(self.clauses)}\n")
        file.writelines(" ".join(map(str, clause)) + " 0\n" for clause in self.clauses)

    def refuted(self, seconds):
        """Whether minisat refutes them in so many seconds, or finds values, and how long it took."""
        with tempfile.NamedTemporaryFile("w", suffix=".cnf") as file:
            self.write(file)
            file.flush()
            start = time.time()
            try:
                done = subprocess.run(["minisat", "-verb=0", file.name], capture_output=True, timeout=seconds)
                word = {10: "open", 20: "refuted"}[done.returncode]
            except subprocess.TimeoutExpired:
                word = "undecided"
            return word, time.time() - start

    def said(self):
        return f"nets {len(self.nets)} cells {len(self.cells)} variables {self.vars} clauses {len(self.clauses)}"


def windows(fabric, width, size, seconds):
    nx, ny = fabric.placement.size
    start, words = time.time(), []
    for x in range(1, nx - size + 2):
        for y in range(1, ny - size + 2):
            low, high = (max(x - 2, 0), max(y - 2, 0)), (min(x + size, nx), min(y + size, ny))
            window = Window(fabric, width, low, high)
            words.append(window.refuted(seconds)[0])
            if words[-1] == "refuted":
                print(f"blocks from ({x},{y}): {window.said()} refuted", flush=True)
    count = {word: words.count(word) for word in ("refuted", "open", "undecided")}
    print(f"windows {len(words)} of {size} by {size} blocks: {count}, {time.time() - start:.1f} s")


def main():
    words = sys.argv[1:]
    fabric, width = Fabric([open(name).read() for name in words[:3]]), int(words[3])

    def after(flag, count):
        at = words.index(flag) if flag in words else None
        return None if at is None else words[at + 1:at + 1 + count]

    seconds = float((after("--refute", 1) or ["2"])[0])
    if "--windows" in words:
        windows(fabric, width, int(after("--windows", 1)[0]), seconds)
        return
    i, j, k, m = map(int, after("--window", 4) or (0, 0, *fabric.placement.size))
    window = Window(fabric, width, (i, j), (k, m))
    print(window.said())
    if "--out" in words:
        with open(after("--out", 1)[0], "w") as file:
            window.write(file)
    if "--refute" in words:
        print("{}, {:.2f} s".format(*window.refuted(seconds)))


if __name__ == "__main__":
    main()
