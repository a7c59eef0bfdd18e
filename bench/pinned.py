#!/usr/bin/env python3
"""Counts the clauses of a problem with pinned tracks: python3 bench/pinned.py ROUTE WIDTH.

Reads a global route alone and takes switch blocks to be subset ones and connection boxes to open every
track. Prints the head of the CNF file and the clauses behind those without pins. It shares no code with
the router, and is what the cases of crates/rows/data/cases/pinned.rows were worked out with."""
import sys
from asked import answer_help

answer_help(__name__, __doc__)


def slots_and_steps(lines):
    """The slots, each a net and a cell, and how many pairs of slots are steps of a net."""
    slots, steps, nets = [], set(), -1
    first, before = {}, None
    is_global = False
    for line in lines:
        words = line.split()
        if not words:
            continue
        if words[0] == "Net":
            nets, first, before = nets + 1, {}, None
            is_global = "global" in line
        if words[0] in ("CHANX", "CHANY") and not is_global:
            cell = (words[0], words[1])
            if cell not in first:
                first[cell] = len(slots)
                slots.append((nets, cell))
            if before is not None and before != first[cell]:
                steps.add(frozenset((before, first[cell])))
            before = first[cell]
        elif words[0] == "OPIN":
            before = None
        elif words[0] in ("SINK", "SOURCE"):
            before = None
    return slots, steps


def cell_key(cell, nx, ny):
    """The number of a cell: channels along x first, row by row, then those along y."""
    kind, place = cell
    x, y = (int(n) for n in place.strip("()").split(","))
    if kind == "CHANX":
        return y * nx + (x - 1)
    return nx * (ny + 1) + (y - 1) * (nx + 1) + x


def main():
    route, width = sys.argv[1], int(sys.argv[2])
    with open(route, encoding="ascii") as file:
        lines = file.read().splitlines()
    size = next(line.split() for line in lines if line.startswith("Array size"))
    nx, ny = int(size[2]), int(size[4])
    slots, steps = slots_and_steps(lines)
    rivals = sum(
        1
        for i, (net, cell) in enumerate(slots)
        for other, there in slots[i + 1 :]
        if cell == there and net != other
    )
    count = len(slots) * (1 + width * (width - 1) // 2) + len(steps) * width + rivals * width
    crowds = {}
    for number, (_, cell) in enumerate(slots):
        crowds.setdefault(cell, []).append(number)
    pinned = []
    if crowds:
        most = max(len(those) for those in crowds.values())
        cell = min((c for c in crowds if len(crowds[c]) == most), key=lambda c: cell_key(c, nx, ny))
        pinned = crowds[cell][:width]
    print(f"p cnf {len(slots) * width} {count + len(pinned)}")
    for track, slot in enumerate(pinned):
        print(f"{slot * width + track + 1} 0")


main()
