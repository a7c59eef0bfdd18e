#!/usr/bin/env python3
"""Makes the four files of a problem: an architecture, a netlist, a placement and a global route.

    make_design.py PREFIX SIZE PATTERN FRACTION FILL SEED

writes PREFIX.arch, PREFIX.net, PREFIX.place and PREFIX.route for an array of SIZE by SIZE logic blocks, each with
four equivalent inputs, an output and a clock. PATTERN is subset, wilton or universal; FRACTION is the share of the
tracks of a channel that each pin opens; FILL, from 0 to 1, is how much of the array is in use. Blocks stand at
random places. Most nets go to a few blocks near by; one in twelve goes to up to ten, anywhere. A clock net is
global. A net is routed sink by sink along cells that few other nets take, from all the cells that it has.
"""
import heapq
import random
import sys
from asked import answer_help

answer_help(__name__, __doc__)

PINS = 4  # the equivalent inputs of a logic block: bottom, left, top, right
PADS = 2  # the pads of a place on the border


def architecture(pattern, fraction):
    return f"""# Logic blocks of four inputs, an output and a clock.
io_rat {PADS}
chan_width_io 1
chan_width_x uniform 1
chan_width_y uniform 1

inpin class: 0 bottom
inpin class: 0 left
inpin class: 0 top
inpin class: 0 right
outpin class: 1 bottom top
inpin class: 2 global top

subblocks_per_clb 1
subblock_lut_size 4

switch_block_type {pattern}
Fc_type fractional
Fc_output {fraction}
Fc_input {fraction}
Fc_pad 1
segment frequency: 1 length: 1 wire_switch: 0 opin_switch: 0 Frac_cb: 1. \\
    Frac_sb: 1. Rmetal: 4.16 Cmetal: 81e-15
switch 0 buffered: yes R: 786.9 Cin: 7.512e-15 Cout: 10.762e-15 Tdel: 456e-12
T_ipad 478e-12
"""


def around(cell, size):
    """The cells that meet a cell: those at the switch blocks at its two ends."""
    kind, x, y = cell
    blocks = [(x - 1, y), (x, y)] if kind == "X" else [(x, y - 1), (x, y)]
    met = []
    for i, j in blocks:
        met += [("X", i, j), ("X", i + 1, j), ("Y", i, j), ("Y", i, j + 1)]
    return [c for c in met if c != cell and exists(c, size)]


def exists(cell, size):
    kind, x, y = cell
    if kind == "X":
        return 1 <= x <= size and 0 <= y <= size
    return 0 <= x <= size and 1 <= y <= size


def beside(x, y, pin):
    """The cell that an input of the block at (x, y) touches."""
    return [("X", x, y - 1), ("Y", x - 1, y), ("X", x, y), ("Y", x, y)][pin]


def beside_pad(x, y, size):
    """The cell that a pad at (x, y) touches."""
    if y == 0:
        return ("X", x, 0)
    if y == size + 1:
        return ("X", x, size)
    return ("Y", 0, y) if x == 0 else ("Y", size, y)


class Design:
    def __init__(self, size, fill, seed):
        self.size = size
        self.random = random.Random(seed)
        self.logic = self.places_of_logic(fill)
        self.pads = self.places_of_pads()
        self.load = {}
        self.free_pins = {place: list(range(PINS)) for place in self.logic}
        self.nets = []
        self.make_nets()

    def places_of_logic(self, fill):
        places = [(x, y) for x in range(1, self.size + 1) for y in range(1, self.size + 1)]
        self.random.shuffle(places)
        return places[: max(2, round(fill * len(places)))]

    def places_of_pads(self):
        last = self.size + 1
        border = [(k, 0) for k in range(1, last)] + [(k, last) for k in range(1, last)]
        border += [(0, k) for k in range(1, last)] + [(last, k) for k in range(1, last)]
        pads = [(x, y, sub) for x, y in border for sub in range(PADS)]
        self.random.shuffle(pads)
        return pads

    def make_nets(self):
        drivers = [("logic", place) for place in self.logic]
        for _ in range(max(1, len(self.logic) // 8)):
            drivers.append(("input", self.pads.pop()))
        self.clock = self.pads.pop()
        for number, (kind, place) in enumerate(drivers):
            wide = number % 12 == 11
            sinks = self.sinks_of(place, self.random.randint(4, 10) if wide else self.random.randint(1, 3), wide)
            if len(self.pads) > 2 and self.random.random() < 0.2:
                sinks.append(("output", self.pads.pop()))
            if sinks:
                self.nets.append((kind, place, sinks))

    def sinks_of(self, place, count, wide):
        x, y = place[0], place[1]
        near = [p for p in self.logic if self.free_pins[p] and p != (x, y)
                and (wide or abs(p[0] - x) + abs(p[1] - y) <= 4)]
        self.random.shuffle(near)
        sinks = []
        for at in near[:count]:
            sinks.append(("logic", at))
            self.free_pins[at].pop()
        return sinks

    def route(self):
        """For each net its branches: a list of cells and the pin that it ends at; the first begins at the driver."""
        used_pins = {place: set() for place in self.logic}
        for kind, place, sinks in self.nets:
            starts = self.starts(kind, place)
            mine = []
            branches = []
            for sink in sinks:
                ends = self.ends(sink, used_pins)
                path = self.path(mine or starts, ends, mine)
                end = ends[path[-1]]
                if sink[0] == "logic":
                    used_pins[sink[1]].add(end)
                branches.append((path, sink, end))
                for cell in path:
                    if cell not in mine:
                        mine.append(cell)
            for cell in mine:
                self.load[cell] = self.load.get(cell, 0) + 1
            yield kind, place, branches

    def starts(self, kind, place):
        if kind == "logic":
            return [("X", place[0], place[1] - 1), ("X", place[0], place[1])]
        return [beside_pad(place[0], place[1], self.size)]

    def ends(self, sink, used_pins):
        """The cells where a sink can be reached, each with the pin there."""
        kind, place = sink
        if kind == "output":
            return {beside_pad(place[0], place[1], self.size): place[2]}
        return {beside(place[0], place[1], pin): pin for pin in range(PINS) if pin not in used_pins[place]}

    def path(self, starts, ends, mine):
        """The cheapest way from one of the cells to one where the sink is reached."""
        heap = [(0 if cell in mine else self.cost(cell), n, cell, None) for n, cell in enumerate(starts)]
        heapq.heapify(heap)
        before = {}
        count = len(heap)
        while heap:
            cost, _, cell, last = heapq.heappop(heap)
            if cell in before:
                continue
            before[cell] = last
            if cell in ends:
                way = [cell]
                while before[way[-1]] is not None:
                    way.append(before[way[-1]])
                return way[::-1]
            for other in around(cell, self.size):
                if other not in before and other not in mine:
                    count += 1
                    heapq.heappush(heap, (cost + self.cost(other), count, other, cell))
        raise SystemExit("a net has no way to its sink")

    def cost(self, cell):
        return 1 + self.load.get(cell, 0)


def write_netlist(design, out):
    out.write(".global clk\n\n.input pclk\npinlist: clk\n\n")
    blocks = {place: ["open"] * PINS + ["open", "clk"] for place in design.logic}
    pads = []
    for number, (kind, place, sinks) in enumerate(design.nets):
        name = f"n{number}"
        if kind == "logic":
            blocks[place][PINS] = name
        else:
            pads.append((".input", f"i{number}", name))
        for what, at in sinks:
            if what == "logic":
                pins = blocks[at]
                pins[pins.index("open")] = name
            else:
                pads.append((".output", f"o{number}", name))
    for kind, block, name in pads:
        out.write(f"{kind} {block}\npinlist: {name}\n\n")
    for x, y in design.logic:
        pins = blocks[(x, y)]
        out.write(f".clb b{x}_{y}\npinlist: {' '.join(pins)}\n")
        if pins[PINS] != "open":
            inputs = " ".join(str(k) if pins[k] != "open" else "open" for k in range(PINS))
            out.write(f"subblock: b{x}_{y} {inputs} {PINS} {PINS + 1}\n")
        out.write("\n")


def write_placement(design, prefix, out):
    out.write(f"Netlist file: {prefix}.net   Architecture file: {prefix}.arch\n")
    out.write(f"Array size: {design.size} x {design.size} logic blocks\n\n#block name\tx\ty\tsubblk\n")
    out.write("#----------\t--\t--\t------\n")
    x, y, sub = design.clock
    out.write(f"pclk\t{x}\t{y}\t{sub}\n")
    for number, (kind, place, sinks) in enumerate(design.nets):
        if kind == "input":
            out.write(f"i{number}\t{place[0]}\t{place[1]}\t{place[2]}\n")
        for what, at in sinks:
            if what == "output":
                out.write(f"o{number}\t{at[0]}\t{at[1]}\t{at[2]}\n")
    for x, y in design.logic:
        out.write(f"b{x}_{y}\t{x}\t{y}\t0\n")


def element(kind, x, y, label, number):
    return f"{kind:>6} ({x},{y})  {label}: {number}  \n"


def write_route(design, out):
    out.write(f"Array size: {design.size} x {design.size} logic blocks.\n\nRouting:")
    number = 0
    for number, (kind, place, branches) in enumerate(design.route()):
        out.write(f"\n\nNet {number} (n{number})\n\n")
        x, y = place[0], place[1]
        first = branches[0][0][0]
        if kind == "logic":
            out.write(element("SOURCE", x, y, "Class", 1) + element("OPIN", x, y, "Pin", PINS))
        else:
            out.write(element("SOURCE", x, y, "Pad", place[2]) + element("OPIN", x, y, "Pad", place[2]))
        for path, (what, at), end in branches:
            for cell in path:
                out.write(element("CHAN" + cell[0], cell[1], cell[2], "Track", 0))
            if what == "logic":
                out.write(element("IPIN", at[0], at[1], "Pin", end) + element("SINK", at[0], at[1], "Class", 0))
            else:
                out.write(element("IPIN", at[0], at[1], "Pad", end) + element("SINK", at[0], at[1], "Pad", end))
    x, y, sub = design.clock
    out.write(f"\n\nNet {number + 1} (clk): global net connecting:\n\n")
    out.write(f"Block pclk (#0) at ({x}, {y}), Pin class -1.\n")
    for k, (x, y) in enumerate(design.logic):
        out.write(f"Block b{x}_{y} (#{k + 1}) at ({x}, {y}), Pin class 2.\n")


def main():
    prefix, size, pattern, fraction, fill, seed = sys.argv[1:7]
    design = Design(int(size), float(fill), int(seed))
    with open(prefix + ".arch", "w") as out:
        out.write(architecture(pattern, fraction))
    with open(prefix + ".net", "w") as out:
        write_netlist(design, out)
    with open(prefix + ".place", "w") as out:
        write_placement(design, prefix.rsplit("/", 1)[-1], out)
    with open(prefix + ".route", "w") as out:
        write_route(design, out)


if __name__ == "__main__":
    main()
