#!/usr/bin/env python3
"""Compares the cut that is said of a placement with the least width of all its routings, on small designs.

    bounds.py PROGRAM [COUNT [SEED]]

makes COUNT small designs, has PROGRAM bound ARCH NET PLACE say a cut and a bound, counts the nets that cross that cut and
those that cross each straight line from plain definitions, and looks for the least width at which the nets can be
routed, over all global routes and all tracks: net by net, way by way, with every way back. PROGRAM says the lines
`cut (I,J) (I,J) cells K nets M`, `net NAME` for each of these nets, and `bound B`. This shares nothing with it.
Then `least` is to raise that bound to no more than the least width, where it does so with a refutation that `check`
accepts, and else without one.
"""
import random
import re
import subprocess
import sys
import tempfile
from fractions import Fraction
from pathlib import Path
from asked import answer_help

answer_help(__name__, __doc__)

SIDES = ("left", "right", "bottom", "top")
NODES = 20_000  # steps of a search at one width, past which the design is left out


def side_cell(x, y, side):
    return {"left": ("Y", x - 1, y), "right": ("Y", x, y), "bottom": ("X", x, y - 1), "top": ("X", x, y)}[side]


def corners(cell):
    kind, x, y = cell
    return [(x - 1, y) if kind == "X" else (x, y - 1), (x, y)]


class Design:
    """An array, the pins of its logic blocks, blocks at their places, and nets as (driver, sinks, global)."""

    def __init__(self, rng):
        self.nx, self.ny = rng.randint(1, 3), rng.randint(1, 3)
        self.pattern = rng.choice(["subset", "wilton", "universal"])
        self.pins = [(0, False, False, self.sides(rng)), (0, False, False, self.sides(rng)),
                     (1, True, False, self.sides(rng)), (2, False, False, self.sides(rng)),
                     (3, False, True, ["top"])]
        spots = [("logic", x, y, 0) for x in range(1, self.nx + 1) for y in range(1, self.ny + 1)]
        border = [(x, y) for x in range(1, self.nx + 1) for y in (0, self.ny + 1)]
        border += [(x, y) for x in (0, self.nx + 1) for y in range(1, self.ny + 1)]
        rng.shuffle(border)
        spots = rng.sample(spots, rng.randint(1, len(spots)))
        spots += [(rng.choice(["in", "out"]), x, y, sub) for x, y in border[:4] for sub in range(2)]
        self.blocks = spots
        self.nets = self.choose_nets(rng)

    @staticmethod
    def sides(rng):
        return rng.sample(SIDES, rng.choice([1, 1, 2]))

    def choose_nets(self, rng):
        drivers = [(b, 2 if k[0] == "logic" else 0) for b, k in enumerate(self.blocks) if k[0] != "out"]
        takers = [(b, p) for b, k in enumerate(self.blocks) if k[0] == "logic" for p in (0, 1, 3)]
        takers += [(b, 0) for b, k in enumerate(self.blocks) if k[0] == "out"]
        rng.shuffle(drivers)
        rng.shuffle(takers)
        nets = []
        for driver in drivers[: rng.randint(0, 6)]:
            sinks = {}  # at most one of a class of a block
            for block, pin in [takers.pop() for _ in range(rng.choice([1, 1, 2, 3])) if takers]:
                sinks[block, self.pins[pin][0]] = block, pin
            sinks = list(sinks.values())
            if sinks:
                nets.append((driver, sinks, False))
        clocked = [(b, 4) for b, k in enumerate(self.blocks) if k[0] == "logic"]
        spare = [d for d in drivers if d not in [n[0] for n in nets] and self.blocks[d[0]][0] == "in"]
        if spare and rng.random() < 0.3:
            nets.insert(rng.randint(0, len(nets)), (spare[0], clocked, True))
        return nets

    def has(self, cell):
        kind, x, y = cell
        return (1 <= x <= self.nx and 0 <= y <= self.ny) if kind == "X" else (0 <= x <= self.nx and 1 <= y <= self.ny)

    def terminal_pins(self, at):
        block, pin = at
        if self.blocks[block][0] != "logic":
            return [(block, 0)]
        return [(block, p) for p, spec in enumerate(self.pins) if spec[0] == self.pins[pin][0] and not spec[2]]

    def touched(self, at):
        block, pin = at
        kind, x, y, _ = self.blocks[block]
        if kind == "logic":
            sides = self.pins[pin][3]
        else:
            looks = {"left": x == self.nx + 1, "right": x == 0, "bottom": y == self.ny + 1, "top": y == 0}
            sides = [s for s in SIDES if looks[s]]
        return [c for c in (side_cell(x, y, s) for s in sides) if self.has(c)]

    def cells_of(self, at):
        return [c for p in self.terminal_pins(at) for c in self.touched(p)]

    def cells(self):
        both = [("X", x, y) for x in range(self.nx + 2) for y in range(self.ny + 2)]
        return [c for c in both + [("Y",) + c[1:] for c in both] if self.has(c)]

    # The texts.

    def write(self, folder):
        lines = ["io_rat 2", "chan_width_io 1", "chan_width_x uniform 1", "chan_width_y uniform 1"]
        for cls, out, glob, sides in self.pins:
            lines.append(f"{'outpin' if out else 'inpin'} class: {cls} {'global ' if glob else ''}{' '.join(sides)}")
        lines += ["subblocks_per_clb 1", "subblock_lut_size 3", f"switch_block_type {self.pattern}",
                  "Fc_type fractional", "Fc_output 1", "Fc_input 1", "Fc_pad 1",
                  "segment frequency: 1 length: 1 wire_switch: 0 opin_switch: 0 Frac_cb: 1. Frac_sb: 1. Rmetal: 4.16 "
                  "Cmetal: 81e-15",
                  "switch 0 buffered: yes R: 786.9 Cin: 7.512e-15 Cout: 10.762e-15 Tdel: 456e-12", "T_ipad 478e-12"]
        arch = folder / "a.arch"
        arch.write_text("\n".join(lines) + "\n")
        net_at = {}
        for n, (driver, sinks, _) in enumerate(self.nets):
            for pin in [driver] + sinks:
                net_at[pin] = f"n{n}"
        lines = [f".global n{n}" for n, net in enumerate(self.nets) if net[2]]
        names = []
        for b, (kind, _, _, _) in enumerate(self.blocks):
            used = [net_at.get((b, p)) for p in range(5 if kind == "logic" else 1)]
            if not any(used):
                names.append(None)
                continue
            names.append(f"b{b}")
            if kind == "logic":
                own = [net or "open" for net in used]
                lines += [f".clb b{b}", "pinlist: " + " ".join(own)]
                lines.append("subblock: b" + str(b) + " " + " ".join(
                    str(p) if used[p] else "open" for p in (0, 1, 3)) + (" 2" if used[2] else " open")
                    + (" 4" if used[4] else " open"))
            else:
                lines += [f".{'input' if kind == 'in' else 'output'} b{b}", f"pinlist: {used[0]}"]
        self.order = list(dict.fromkeys(
            word for line in lines if line.startswith("pinlist:") for word in line.split()[1:] if word != "open"))
        net = folder / "a.net"
        net.write_text("\n".join(lines) + "\n")
        lines = ["Netlist file: a.net Architecture file: a.arch", f"Array size: {self.nx} x {self.ny} logic blocks", "",
                 "#block name x y subblk block number", "#---------- -- -- ------ ------------"]
        lines += [f"{names[b]} {x} {y} {sub} #{b}" for b, (_, x, y, sub) in enumerate(self.blocks) if names[b]]
        place = folder / "a.place"
        place.write_text("\n".join(lines) + "\n")
        return [str(arch), str(net), str(place)]

    # Cuts.

    def crossing(self, inside):
        """The numbers of the nets that cross the cut round these corners, and its cells."""
        cut = [c for c in self.cells() if sum(map(inside, corners(c))) == 1]

        def lies(at, test):
            return all(test(c) for c in self.cells_of(at))

        def one_in(cell):
            return any(map(inside, corners(cell)))

        def one_out(cell):
            return not all(map(inside, corners(cell)))

        numbers = []
        for n, (driver, sinks, glob) in enumerate(self.nets):
            for sink in sinks:
                if not glob and (lies(driver, cut.__contains__) or lies(sink, cut.__contains__)
                                 or lies(driver, one_in) and lies(sink, one_out)
                                 or lies(driver, one_out) and lies(sink, one_in)):
                    numbers.append(n)
                    break
        return numbers, cut

    def lines(self):
        for c in range(self.nx):
            yield self.crossing(lambda at, c=c: at[0] <= c)
        for c in range(self.ny):
            yield self.crossing(lambda at, c=c: at[1] <= c)

    # Routings.

    def joined(self, wire, width):
        """The wires that switch blocks join to this one."""
        cell, track = wire
        found = []
        for i, j in set(corners(cell)):
            around = {"left": ("X", i, j), "right": ("X", i + 1, j), "bottom": ("Y", i, j), "top": ("Y", i, j + 1)}
            here = [s for s in SIDES if around[s] == cell][0]
            for side in SIDES:
                if side != here and self.has(around[side]):
                    found.append((around[side], across(self.pattern, width, here, side, track)))
        return found


def across(pattern, w, a, b, t):
    if pattern == "universal" and {a, b} in ({"left", "top"}, {"right", "bottom"}):
        return w - 1 - t
    if pattern == "wilton":
        if {a, b} == {"left", "top"}:
            return (w - t) % w
        if (a, b) in (("left", "bottom"), ("right", "top")):
            return (w + t - 1) % w
        if (a, b) in (("bottom", "left"), ("top", "right")):
            return (t + 1) % w
        if {a, b} == {"right", "bottom"}:
            return (2 * w - 2 - t) % w
    return t


class Spent(Exception):
    pass


class Router:
    """A search for a routing at one width; each pin opens each track."""

    def __init__(self, design, width):
        self.design, self.width, self.left = design, width, NODES
        self.ways = [(n, net[0], sink) for n, net in enumerate(design.nets) if not net[2] for sink in net[1]]
        self.owner, self.out_of, self.into = {}, {}, {}
        self.next = {}

    def joined(self, wire):
        if wire not in self.next:
            self.next[wire] = self.design.joined(wire, self.width)
        return self.next[wire]

    def wires(self, pin):
        return [(c, t) for c in self.design.touched(pin) for t in range(self.width)]

    def routed(self, k=0):
        if k == len(self.ways):
            return True
        net, driver, sink = self.ways[k]
        for start in self.design.terminal_pins(driver):
            if self.out_of.get(start, net) != net:
                continue
            for end in self.design.terminal_pins(sink):
                if end in self.into:
                    continue
                had = self.out_of.get(start)
                self.out_of[start], self.into[end] = net, net
                goal = set(self.wires(end))
                for wire in self.wires(start):
                    if self.extend(k, net, wire, goal, [], set()):
                        return True
                del self.into[end]
                if had is None:
                    del self.out_of[start]
        return False

    def extend(self, k, net, wire, goal, path, passed):
        self.left -= 1
        if self.left < 0:
            raise Spent
        if self.owner.get(wire, net) != net or wire in passed:
            return False
        # A wire that an earlier one of the way is joined to would be a way round.
        if any(wire in self.joined(early) for early in path[:-1]):
            return False
        fresh = wire not in self.owner
        self.owner[wire] = net
        done = self.routed(k + 1) if wire in goal else any(
            self.extend(k, net, after, goal, path + [wire], passed | {wire}) for after in self.joined(wire))
        if done:
            return True
        if fresh:
            del self.owner[wire]
        return False


def least_width(design):
    width = 1
    while not Router(design, width).routed():
        width += 1
    return width


def raised_bound(program, names, folder, bound):
    """The bound that `least` tells in words; above that of the cut it comes with a refutation."""
    prefix = folder / "least"
    for ending in ("route", "cnf", "lrat"):
        prefix.with_suffix(f".{ending}").unlink(missing_ok=True)
    words = [program, "least"] + names + ["64", str(prefix), "--free"]
    told = subprocess.run(words, capture_output=True, text=True).stderr
    found = re.match(r"This placement needs from (\d+) to|(\d+) tracks are the least", told)
    assert found, (words, told)
    raised = int(found.group(1) or found.group(2))
    proof = [f"{prefix}.cnf", f"{prefix}.lrat"]
    assert all(Path(name).exists() == (raised > bound) for name in proof), (words, told)
    if raised > bound:
        said = subprocess.run([program, "check"] + proof, capture_output=True, text=True).stdout
        assert said == "accepted\n", (words, said)
    return raised


def main():
    program = sys.argv[1]
    count = int(sys.argv[2]) if len(sys.argv) > 2 else 300
    rng = random.Random(int(sys.argv[3]) if len(sys.argv) > 3 else 1)
    gaps, left, spent = {}, {}, 0
    with tempfile.TemporaryDirectory() as folder:
        for number in range(count):
            design = Design(rng)
            names = design.write(Path(folder))
            said = subprocess.run([program, "bound"] + names, capture_output=True, text=True).stdout
            cut = re.match(r"cut \((\d+),(\d+)\) \((\d+),(\d+)\) cells (\d+) nets (\d+)\n", said)
            assert cut, (number, names, said)
            i1, j1, i2, j2, k, m = map(int, cut.groups())
            named = re.findall(r"^net (\S+)$", said, re.M)
            bound = int(re.search(r"^bound (\d+)$", said, re.M).group(1))
            numbers, cells = design.crossing(lambda at: i1 <= at[0] <= i2 and j1 <= at[1] <= j2)
            want = [name for name in design.order if name in {f"n{n}" for n in numbers}]
            assert named == want and m == len(numbers) and k == len(cells) >= 1, (number, said)
            assert bound == max(1, -(-m // k)), (number, said)
            for others, line in design.lines():
                assert Fraction(len(others), len(line)) <= Fraction(m, k), (number, said)
            raised = raised_bound(program, names, Path(folder), bound)
            try:
                least = least_width(design)
            except Spent:
                spent += 1
                continue
            assert bound <= raised <= least, (number, said, raised, least)
            gaps[least - bound] = gaps.get(least - bound, 0) + 1
            left[least - raised] = left.get(least - raised, 0) + 1
    print(f"{count} designs, {spent} left out; least width beyond the bound, and how often: {dict(sorted(gaps.items()))}")
    print(f"beyond the one that was raised: {dict(sorted(left.items()))}")


main()
