#!/usr/bin/env python3
"""Judges routed files in plain definitions over lists, from the text of docs/FORMATS.md.

    judge.py ARCH NET PLACE ROUTE WIDTH ROUTED [REACH] [--all]

says what `verify` is to say, within a reach where one is given, with `--all` each line against which there
is a cause, and

    judge.py --placed ARCH NET PLACE WIDTH ROUTED [--strict]

what `judge` is to say. It shares nothing with the program, and is slow.
"""
import copy
import sys
from asked import answer_help

answer_help(__name__, __doc__)

CHANNELS = ("CHANX", "CHANY")
PINS = ("OPIN", "IPIN")
BEHIND = {
    "SOURCE": ("OPIN",),
    "OPIN": CHANNELS,
    "CHANX": CHANNELS + ("IPIN",),
    "CHANY": CHANNELS + ("IPIN",),
    "IPIN": ("SINK",),
    "SINK": ("SOURCE", "OPIN") + CHANNELS,
}


# Texts.

def words_of(text):
    """The lines with words, each with its number, without comments."""
    for number, line in enumerate(text.split("\n"), 1):
        words = line.split("#")[0].split()
        if words:
            yield number, words


def millionths(word):
    whole, _, part = word.partition(".")
    return int(whole or "0") * 1000000 + int((part + "000000")[:6])


class Arch:
    def __init__(self, text):
        self.pins = []
        for _, words in words_of(text.replace("\\\n", " ")):
            key = words[0]
            if key == "io_rat":
                self.pads = int(words[1])
            elif key in ("inpin", "outpin"):
                sides = [w for w in words[3:] if w != "global"]
                self.pins.append((int(words[2]), key == "outpin", "global" in words, sides))
            elif key == "switch_block_type":
                self.pattern = words[1]
            elif key == "Fc_type":
                self.fractional = words[1] == "fractional"
            elif key in ("Fc_output", "Fc_input", "Fc_pad"):
                setattr(self, key, millionths(words[1]))


class Netlist:
    """Blocks in order, and nets by name: whether global, the driver's (block, pin), the sinks'."""

    def __init__(self, text, arch):
        lines = list(words_of(text.replace("\\\n", " ")))
        globals_named = {w for _, words in lines if words[0] == ".global" for w in words[1:]}
        self.blocks = []
        self.nets = {}
        for _, words in lines:
            if words[0] in (".input", ".output", ".clb"):
                self.blocks.append((words[0], words[1]))
            elif words[0] == "pinlist:":
                kind = self.blocks[-1][0]
                for pin, name in enumerate(words[1:]):
                    if name == "open":
                        continue
                    net = self.nets.setdefault(name, [name in globals_named, None, []])
                    drives = kind == ".input" or kind == ".clb" and arch.pins[pin][1]
                    if drives and net[1] is None:
                        net[1] = (len(self.blocks) - 1, pin)
                    if not drives:
                        net[2].append((len(self.blocks) - 1, pin))


class Placement:
    def __init__(self, text, netlist):
        lines = [words for _, words in words_of(text)]
        self.size = (int(lines[1][2]), int(lines[1][4]))
        at = {words[0]: tuple(map(int, words[1:4])) for words in lines[2:]}
        self.places = [at[name] for _, name in netlist.blocks]


class Elem:
    def __init__(self, line, kind, place, label, number):
        self.line, self.kind, self.place, self.label, self.number = line, kind, place, label, number

    def at(self):
        return (self.kind, self.place, self.label)

    def is_channel(self):
        return self.kind in CHANNELS


class RouteNet:
    def __init__(self, line, name, is_global):
        self.line, self.name, self.is_global, self.elems = line, name, is_global, []


class Route:
    def __init__(self, text):
        self.lines = len(text.split("\n")) - text.endswith("\n")
        lines = list(words_of(text))
        self.size_line, words = lines[0]
        self.size = (int(words[2]), int(words[4]))
        self.nets = []
        for number, words in lines[2:]:
            if words[0] == "Net":
                is_global = len(words) > 3
                name = words[2][1:-2] if is_global else words[2][1:-1]
                self.nets.append(RouteNet(number, name, is_global))
            elif words[0] != "Block":
                place = tuple(map(int, words[1][1:-1].split(",")))
                self.nets[-1].elems.append(Elem(number, words[0], place, words[2][:-1], int(words[3])))


# The fabric.

def cells_at(i, j):
    """The cells of the switch block (i, j), by the sides that they come in on."""
    return {
        "left": ("CHANX", (i, j)),
        "right": ("CHANX", (i + 1, j)),
        "bottom": ("CHANY", (i, j)),
        "top": ("CHANY", (i, j + 1)),
    }


def sides_of(size, one, other):
    """The sides by which the two cells come into the switch block that has both, if one has."""
    for i in range(size[0] + 1):
        for j in range(size[1] + 1):
            sides = {cell: side for side, cell in cells_at(i, j).items()}
            if one != other and one in sides and other in sides:
                return sides[one], sides[other]
    return None


def mapped(pattern, width, start, end, t):
    """The track on the side `end` that track t on the side `start` is joined to."""
    if pattern == "subset" or {start, end} in ({"left", "right"}, {"bottom", "top"}):
        return t
    turn = frozenset((start, end))
    if pattern == "universal":
        straight = (frozenset(("left", "bottom")), frozenset(("right", "top")))
        return t if turn in straight else width - 1 - t
    return {
        ("left", "top"): -t,
        ("top", "left"): -t,
        ("left", "bottom"): t - 1,
        ("right", "top"): t - 1,
        ("bottom", "left"): t + 1,
        ("top", "right"): t + 1,
        ("right", "bottom"): -2 - t,
        ("bottom", "right"): -2 - t,
    }[start, end] % width


def are_joined(p, width, one, other):
    sides = sides_of(p.route.size, one.at()[:2], other.at()[:2])
    return sides is not None and mapped(p.arch.pattern, width, *sides, one.number) == other.number


def touched(p, pin):
    """The cells that the pin line's pin touches."""
    (x, y), (nx, ny) = pin.place, p.route.size
    if pin.label == "Pad":
        return [cell for side, cell in (
            (x == 0, ("CHANY", (0, y))),
            (x == nx + 1, ("CHANY", (nx, y))),
            (y == 0, ("CHANX", (x, 0))),
            (y == ny + 1, ("CHANX", (x, ny))),
        ) if side]
    if pin.number >= len(p.arch.pins):
        return []
    beside = {
        "top": ("CHANX", (x, y)),
        "bottom": ("CHANX", (x, y - 1)),
        "right": ("CHANY", (x, y)),
        "left": ("CHANY", (x - 1, y)),
    }
    return [beside[side] for side in p.arch.pins[pin.number][3]]


def opened(p, width, pin):
    """The tracks that the pin line's pin opens in the cells that it touches."""
    if pin.label == "Pad":
        share = p.arch.Fc_pad
    else:
        share = p.arch.Fc_output if p.arch.pins[pin.number][1] else p.arch.Fc_input
    count = (2 * width * share + 1000000) // 2000000 if p.arch.fractional else share // 1000000
    count = min(max(count, 1), width)
    return [(k * width // count + pin.number) % width for k in range(count)]


# The judge.

class Problem:
    def __init__(self, arch, net, place, route):
        self.arch = Arch(arch)
        self.netlist = Netlist(net, self.arch)
        self.placement = Placement(place, self.netlist)
        self.route = Route(route)

    def with_route(self, text):
        """The same architecture, netlist and placement with another route."""
        other = copy.copy(self)
        other.route = Route(text)
        return other

    def terminal(self, ref):
        """Where a net begins or ends by this pin of this block: place, label and number."""
        (kind, _), (x, y, sub) = self.netlist.blocks[ref[0]], self.placement.places[ref[0]]
        if kind == ".clb":
            return ((x, y), "Class", self.arch.pins[ref[1]][0])
        return ((x, y), "Pad", sub)

    def driver(self, name):
        net = self.netlist.nets.get(name)
        return self.terminal(net[1]) if net and net[1] else None

    def sinks(self, name):
        net = self.netlist.nets.get(name)
        return [self.terminal(ref) for ref in net[2]] if net else []

    def cells_of(self, name):
        for net in self.route.nets:
            if net.name == name:
                return [e.at() for e in net.elems if e.is_channel()]
        return []

    def has_pin(self, terminal, pin):
        """Whether the pin line is at the terminal: a pin of its place and class, or its pad."""
        place, label, number = terminal
        if place != pin.place:
            return False
        if label == "Pad":
            return pin.label == "Pad" and pin.number == number
        return pin.label == "Pin" and pin.number < len(self.arch.pins) and self.arch.pins[pin.number][0] == number

    def is_input(self, pin):
        for (kind, _), (x, y, sub) in zip(self.netlist.blocks, self.placement.places):
            if (x, y) != pin.place:
                continue
            if kind == ".clb" and pin.label == "Pin" and pin.number < len(self.arch.pins):
                _, drives, is_global, _ = self.arch.pins[pin.number]
                if not drives and not is_global:
                    return True
            if kind == ".output" and pin.label == "Pad" and pin.number == sub:
                return True
        return False


def equals(one, other):
    return one.at() == other.at() and one.number == other.number


def is_unconnected(p, width, before, e):
    """801"""
    if before is None:
        return False
    for channel, other in ((e, before), (before, e)):
        if channel.is_channel() and channel.number >= width:
            return False
        if channel.is_channel() and other.kind in PINS:
            return channel.at()[:2] not in touched(p, other) or channel.number not in opened(p, width, other)
    return before.is_channel() and e.is_channel() and not are_joined(p, width, before, e)


def is_unfit(p, name, is_global, earlier_nets, elems, i):
    """807 at an element line"""
    e = elems[i]
    before = elems[i - 1] if i else None
    branch = before is not None and before.kind == "SINK"
    again = any(equals(e, other) for other in elems[:i])
    is_last = i + 1 == len(elems)
    driver = p.driver(name)
    named = (e.place, e.label, e.number)
    if e.kind == "SOURCE" and named != driver:
        return True
    if e.kind == "SINK":
        if named not in p.sinks(name) or again:
            return True
        if before is not None and before.kind == "IPIN" and not p.has_pin(named, before):
            return True
    if e.kind == "OPIN":
        is_for_global = e.label == "Pin" and e.number < len(p.arch.pins) and p.arch.pins[e.number][2]
        if driver is None or not p.has_pin(driver, e) or is_for_global:
            return True
    if e.kind == "IPIN" and not p.is_input(e):
        return True
    if not e.is_channel() and e.kind != "SINK" and not branch and again:
        return True
    if branch and e.kind in ("SOURCE", "OPIN") + CHANNELS and not again:
        return True
    if e.kind in PINS and any(
        other.kind in PINS and (other.place, other.label, other.number) == named
        for net in earlier_nets for other in net.elems
    ):
        return True
    if is_global:
        return False
    if before is None and e.kind != "SOURCE" or before is not None and e.kind not in BEHIND[before.kind]:
        return True
    return is_last and e.kind != "SINK"


def lacks_sink(p, name, elems):
    there = {(e.place, e.label, e.number) for e in elems if e.kind == "SINK"}
    return any(sink not in there for sink in p.sinks(name))


def depth(elems, i, depths):
    """How many joins lead to a line by the depths of those before it, or None if that is not said."""
    e = elems[i]
    if not e.is_channel() or i == 0:
        return None
    before = elems[i - 1]
    if before.kind == "SINK":
        return next((depths[j] for j in range(i) if equals(e, elems[j])), None)
    if before.kind == "OPIN":
        return 0
    return None if depths[i - 1] is None else depths[i - 1] + 1


# A placed routing has any cells, and its nets as many wires of them as they like, or strictly one.
FREE, STRICT = "free", "strict"


def causes(p, width, found, reach=None, placed=None):
    """Each line in order by its number, its net and its element, with the causes against it: within a reach
    if there is one, or of a placed routing."""
    is_free = reach is not None or placed == FREE
    yield found.size_line, None, None, [807] if found.size != p.placement.size else []
    for n, net in enumerate(found.nets):
        earlier = found.nets[:n]
        here = []
        named = p.netlist.nets.get(net.name)
        if named is None or named[0] != net.is_global or any(other.name == net.name for other in earlier):
            here.append(807)
        if not net.elems and not net.is_global:
            here.append(807)
            if lacks_sink(p, net.name, []):
                here.append(806)
        yield net.line, net, None, here
        cells = p.cells_of(net.name)
        depths = []
        for i, e in enumerate(net.elems):
            here = []
            depths.append(depth(net.elems, i, depths))
            before = net.elems[i - 1] if i else None
            branch = before is not None and before.kind == "SINK"
            if is_unconnected(p, width, before, e):
                here.append(801)
            if e.is_channel():
                if e.number >= width:
                    here.append(802)
                if any(equals(e, other) for old in earlier for other in old.elems):
                    here.append(803)
                if placed is None and e.at() not in cells:
                    here.append(804)
                again = any(e.at() == other.at() for other in net.elems[:i])
                wire_again = any(equals(e, other) for other in net.elems[:i])
                if wire_again and not branch if is_free else again and not (branch and wire_again):
                    here.append(805)
            if not net.is_global and i + 1 == len(net.elems) and lacks_sink(p, net.name, net.elems):
                here.append(806)
            if is_unfit(p, net.name, net.is_global, earlier, net.elems, i):
                here.append(807)
            if reach is not None and e.kind == "SINK" and i > 1 and before.kind == "IPIN":
                if depths[i - 2] is not None and depths[i - 2] > reach:
                    here.append(808)
            yield e.line, net, e, here
    missing = any(
        not is_global and all(net.name != name for net in found.nets)
        for name, (is_global, _, _) in p.netlist.nets.items()
    )
    yield found.lines + 1, None, None, [806] if missing else []


def judged(p, width, text, reach=None, placed=None):
    for line, _, _, here in causes(p, width, Route(text), reach, placed):
        if here:
            return f"not legal: line {line} cause {min(here)}"
    return "legal"


def all_lines(p, width, text, reach=None):
    """A line for each line of the text against which there is a cause."""
    for line, net, e, here in causes(p, width, Route(text), reach):
        if here:
            of_net = f" net {net.name}" if net else ""
            of_elem = f" {e.kind} ({e.place[0]},{e.place[1]}) {e.label.lower()} {e.number}" if e else ""
            yield f"line {line} cause {min(here)}{of_net}{of_elem}"


def placed_judged(p, width, text, placed):
    """How a text is judged as a routing of the placement; the array of its cells is its own."""
    return judged(p.with_route(text), width, text, None, placed)


def main_placed(words):
    arch, net, place, routed = (open(name).read() for name in words[:3] + words[4:5])
    print(placed_judged(Problem(arch, net, place, routed), int(words[3]), routed, STRICT if words[5:] else FREE))


def main():
    if sys.argv[1:2] == ["--placed"]:
        return main_placed(sys.argv[2:])
    words = [word for word in sys.argv[1:] if word != "--all"]
    arch, net, place, route, routed = (open(name).read() for name in words[:4] + words[5:6])
    reach = int(words[6]) if len(words) > 6 else None
    p, width = Problem(arch, net, place, route), int(words[4])
    if "--all" in sys.argv:
        for line in all_lines(p, width, routed, reach):
            print(line)
    print(judged(p, width, routed, reach))


if __name__ == "__main__":
    main()
