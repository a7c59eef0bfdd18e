#!/usr/bin/env python3
"""Makes rows of changed routings, each with how it is to be judged, and the files that they change.

    make_judged.py FOLDER [PROGRAM]

writes into FOLDER/data the architectures and designs, a routing of each by PROGRAM, and the tables `verify.rows` and
`reach.rows`, with a line for each change; and FOLDER/judged: how the changed routing of each row is to be judged, of
`reach.rows` within the reach and then without it; and then as a routing of the placement, with several wires of a cell
and strictly with one. These lines stand in the stored output of `rows`, behind those of `count.rows`. They are worked out by `judge.py`.
Changes are drawn from a fixed seed.

A row is NAME ARCH DESIGN ROUTED WIDTH FROM TO|LINE|LINE ..: in the routing ROUTED of DESIGN the lines FROM to TO,
counted from 1, are replaced by these. In `reach.rows` the reach stands behind the width.
"""
import os
import random
import shutil
import subprocess
import sys
import tempfile

from judge import FREE, STRICT, Elem, Problem, Route, cells_at, judged, mapped, placed_judged, sides_of
from asked import answer_help

answer_help(__name__, __doc__)

HERE = os.path.dirname(os.path.abspath(__file__))
BUILT = os.path.join(HERE, "..", "crates", "router", "out", "router")
DESIGNS = os.path.join(HERE, "..", "crates", "rows", "data", "problems")
# The architectures and designs that stand there and are not made here.
GIVEN = ("branch", "global", "half", "junction", "subset", "universal", "wilton")
SEED = 1

# Each base: its name, its architecture and its design, and the width of its routing.
BASES = [
    ("junction", "wilton", "junction", 2),
    ("branch", "subset", "branch", 2),
    ("half", "half", "branch", 2),
    ("global", "subset", "global", 1),
    ("made", "made", "made", 5),
]
# A base under other blocks and boxes, or at a width that is so much more.
OTHERS = [
    ("junction", "subset", 0), ("junction", "universal", 0), ("junction", "half", 0), ("junction", "wilton", -1),
    ("junction", "wilton", 1), ("junction", "wilton", 62), ("branch", "half", 0), ("branch", "wilton", 0),
    ("branch", "wilton", 1), ("branch", "universal", 1), ("branch", "subset", 62), ("half", "subset", 0),
    ("half", "half", 1), ("half", "half", 3), ("global", "wilton", 63), ("made", "made", -1), ("made", "made", 1),
]
# Routings within a reach: a name, an architecture, a design, the width and the reach. The lines are those of a routing
# above, of the tree below, or of the global route of the chain.
WITHIN = [
    ("tree", "part", "branch", 2, 1),
    ("chain", "chain", "chain", 1, 3),
    ("junction", "wilton", "junction", 2, 1),
]
# A net that has two wires of one cell.
TREE = """\
Array size: 2 x 1 logic blocks.

Routing:

Net 0 (a)

SOURCE (1,0) Pad: 0
OPIN (1,0) Pad: 0
CHANX (1,0) Track: 1
CHANY (1,1) Track: 1
IPIN (1,1) Pin: 3
SINK (1,1) Class: 0
OPIN (1,0) Pad: 0
CHANX (1,0) Track: 0
CHANX (2,0) Track: 0
IPIN (2,0) Pad: 0
SINK (2,0) Pad: 0
CHANX (2,0) Track: 0
IPIN (2,1) Pin: 0
SINK (2,1) Class: 0
"""
# The same texts within other reaches, under other blocks and boxes or at other widths.
OTHERS_WITHIN = [
    ("tree", "part", 2, 2), ("tree", "part", 2, 64), ("tree", "part", 1, 1), ("tree", "subset", 2, 1),
    ("tree", "wilton", 2, 1), ("tree", "universal", 2, 1), ("tree", "subset", 3, 1), ("chain", "chain", 1, 2),
    ("chain", "chain", 1, 1), ("chain", "chain", 1, 64), ("chain", "chain", 64, 3), ("junction", "wilton", 2, 1),
    ("junction", "wilton", 2, 64), ("half", "half", 2, 1), ("branch", "subset", 2, 1), ("made", "made", 5, 1),
    ("made", "made", 5, 2), ("made", "made", 5, 3), ("made", "made", 5, 64), ("global", "subset", 1, 1),
]


# The changes.

class NoPlace(Exception):
    """There is no place where the change can be made."""


def told(e, number=None):
    return f"{e.kind} ({e.place[0]},{e.place[1]}) {e.label}: {e.number if number is None else number}"


class Base:
    """A routing at a width, and what can be drawn from it."""

    def __init__(self, problem, width, text, chance):
        self.p, self.width, self.text, self.random = problem, width, text, chance
        self.lines = text.split("\n")[:-1]
        self.found = Route(text)
        self.ordinary = [net for net in self.found.nets if net.elems]
        self.elems = [e for net in self.ordinary for e in net.elems]

    def one(self, things):
        things = list(things)
        if not things:
            raise NoPlace
        return self.random.choice(things)

    def net(self):
        return self.one(self.ordinary)

    def two_nets(self):
        return self.one((net, other) for net in self.ordinary for other in self.ordinary if net is not other)

    def elem(self, test=lambda e: True):
        return self.one(e for e in self.elems if test(e))

    def channel(self):
        return self.elem(lambda e: e.is_channel())

    def two_channels(self):
        """Two channel lines next to each other."""
        return self.one((one, two) for net in self.ordinary for one, two in zip(net.elems, net.elems[1:])
                        if one.is_channel() and two.is_channel())

    def branches(self, net):
        """The elements of each branch of the net."""
        ends = [i for i, e in enumerate(net.elems, 1) if e.kind == "SINK"]
        return [net.elems[a:b] for a, b in zip([0] + ends, ends)]

    def branch(self):
        """A net, and a branch of it behind the first."""
        return self.one((net, branch) for net in self.ordinary for branch in self.branches(net)[1:])

    def rivals(self, is_earlier):
        """Two channel lines of different nets in one cell, the second of an earlier net or of a later one."""
        return self.one((e, other) for net in self.ordinary for e in net.elems for old in self.ordinary
                        for other in old.elems if e.is_channel() and e.at() == other.at()
                        and e.number != other.number and (old.line < net.line if is_earlier else old.line > net.line))

    def block(self, net):
        """The first and the last line of a net, with the lines up to the next one."""
        later = [other.line for other in self.found.nets if other.line > net.line]
        return net.line, min(later) - 1 if later else len(self.lines)


def is_cell(size, kind, place):
    (x, y), (nx, ny) = place, size
    return x <= nx and y <= ny and (x >= 1 and y >= 0 if kind == "CHANX" else x >= 0 and y >= 1)


# Each change gives the first and the last line that it replaces, and the lines that come there.

def instead(e, *lines):
    return e.line, e.line, list(lines)


def behind(e, *lines):
    return e.line + 1, e.line, list(lines)


def nothing(b):
    return 1, 0, []


def track_raised(b):
    e = b.channel()
    return instead(e, told(e, e.number + 1))


def track_lowered(b):
    e = b.elem(lambda e: e.is_channel() and e.number)
    return instead(e, told(e, e.number - 1))


def track_at_the_width(b):
    e = b.channel()
    return instead(e, told(e, b.width))


def track_past_all(b):
    e = b.channel()
    return instead(e, told(e, 4294967295))


def two_tracks_at_the_width(b):
    one, two = b.two_channels()
    return one.line, two.line, [told(one, b.width), told(two, b.width)]


def wire_of_an_earlier_net(b):
    e, other = b.rivals(True)
    return instead(e, told(e, other.number))


def wire_of_a_later_net(b):
    e, other = b.rivals(False)
    return instead(e, told(e, other.number))


def net_raised(b):
    """All tracks of a net one higher, and the highest the lowest."""
    net = b.net()
    return net.elems[0].line, net.elems[-1].line, [
        told(e, (e.number + 1) % b.width if e.is_channel() else e.number) for e in net.elems
    ]


def detour(b):
    """Between two channels a cell of their switch block that the net does not have, on the joined track."""
    one, two = b.two_channels()
    cells = [e.at()[:2] for net in b.ordinary if one in net.elems for e in net.elems]
    places = [(i, j) for i in range(b.found.size[0] + 1) for j in range(b.found.size[1] + 1)]
    block = b.one(place for place in places if {one.at()[:2], two.at()[:2]} <= set(cells_at(*place).values()))
    kind, place = b.one(
        cell for cell in cells_at(*block).values() if is_cell(b.found.size, *cell) and cell not in cells
    )
    sides = sides_of(b.found.size, one.at()[:2], (kind, place))
    track = mapped(b.p.arch.pattern, b.width, *sides, one.number)
    return behind(one, told(Elem(0, kind, place, "Track", track)))


def branch_from_another_track(b):
    start = b.branch()[1][0]
    return instead(start, told(start, (start.number + 1) % b.width))


def branch_without_its_start(b):
    return instead(b.branch()[1][0])


def branch_from_another_nets_wire(b):
    net, branch = b.branch()
    other = b.elem(lambda e: e.is_channel() and e not in net.elems)
    return instead(branch[0], told(other))


def branch_from_the_output(b):
    net, branch = b.branch()
    return instead(branch[0], told(net.elems[1]), told(branch[0]))


def branch_from_the_source(b):
    net, branch = b.branch()
    return instead(branch[0], told(net.elems[0]), told(net.elems[1]), told(branch[0]))


def branch_of_an_input_alone(b):
    _, branch = b.branch()
    return branch[0].line, branch[-3].line, []


def branch_left_out(b):
    _, branch = b.branch()
    return branch[0].line, branch[-1].line, []


def branch_twice(b):
    net = b.net()
    return behind(net.elems[-1], *map(told, b.one(b.branches(net))))


def last_line_left_out(b):
    return instead(b.net().elems[-1])


def last_input_left_out(b):
    net = b.net()
    return net.elems[-2].line, net.elems[-1].line, []


def sink_left_out(b):
    return instead(b.elem(lambda e: e.kind == "SINK"))


def cell_twice(b):
    e = b.channel()
    return behind(e, told(e))


def cell_left_out(b):
    return instead(b.channel())


def way_back(b):
    one, two = b.two_channels()
    return behind(two, told(one))


def to_and_fro(b):
    one, two = b.two_channels()
    return behind(two, told(one), told(two))


def two_cells_turned(b):
    one, two = b.two_channels()
    return one.line, two.line, [told(two), told(one)]


def cell_of_another_net(b):
    e, other = b.channel(), b.channel()
    return instead(e, told(other, e.number))


def cell_beside(b):
    e = b.channel()
    x, y = e.place
    e.place = b.one([(x + 1, y), (x - 1, y), (x, y + 1), (x, y - 1)])
    line = told(e)
    e.place = (x, y)
    return instead(e, line)


def number_of_a_pin(b, kind, *numbers):
    e = b.elem(lambda e: e.kind == kind and e.label == "Pin")
    return instead(e, told(e, b.one(numbers)))


def input_of_its_class(b):
    return number_of_a_pin(b, "IPIN", 0, 1, 2, 3)


def output_for_an_input(b):
    return number_of_a_pin(b, "IPIN", 4)


def input_for_global_nets(b):
    return number_of_a_pin(b, "IPIN", 5)


def input_that_is_not_there(b):
    return number_of_a_pin(b, "IPIN", 6, 4294967295)


def input_for_an_output(b):
    return number_of_a_pin(b, "OPIN", 0, 1, 2, 3)


def another_pad(b):
    e = b.elem(lambda e: e.label == "Pad")
    return instead(e, told(e, e.number ^ 1))


def another_class(b):
    e = b.elem(lambda e: e.label == "Class")
    return instead(e, told(e, e.number ^ 1))


def sink_of_another_net(b):
    e, other = b.elem(lambda e: e.kind == "SINK"), b.elem(lambda e: e.kind == "SINK")
    return instead(e, told(other))


def end_of_another_net(b):
    net, other = b.two_nets()
    return net.elems[-2].line, net.elems[-1].line, [told(other.elems[-2]), told(other.elems[-1])]


def source_of_another_net(b):
    net, other = b.two_nets()
    return instead(net.elems[0], told(other.elems[0]))


def start_of_another_net(b):
    net, other = b.two_nets()
    return net.elems[0].line, net.elems[1].line, [told(other.elems[0]), told(other.elems[1])]


def source_left_out(b):
    return instead(b.net().elems[0])


def line_twice(b):
    e = b.elem()
    return behind(e, told(e))


def line_left_out(b):
    return instead(b.elem())


def two_lines_turned(b):
    net = b.net()
    one, two = b.one(zip(net.elems, net.elems[1:]))
    return one.line, two.line, [told(two), told(one)]


def net_left_out(b):
    return *b.block(b.one(b.found.nets)), []


def end_left_out(b):
    return b.random.randint(b.found.nets[0].line, len(b.lines)), len(b.lines), []


def net_twice(b):
    first, last = b.block(b.one(b.found.nets))
    return len(b.lines) + 1, len(b.lines), [line for line in b.lines[first - 1:last] if line]


def net_without_lines(b):
    net = b.net()
    return net.line + 1, net.elems[-1].line, []


def unknown_net(b):
    net = b.one(b.found.nets)
    return instead(net, b.lines[net.line - 1].replace(f"({net.name})", f"({net.name}x)"))


def name_of_another_net(b):
    net, other = b.two_nets()
    return instead(net, f"Net 0 ({other.name})")


def ordinary_net_as_global(b):
    net = b.net()
    return net.line, net.elems[-1].line, [f"Net 0 ({net.name}): global net connecting:"]


def global_net_as_ordinary(b):
    net = b.one(net for net in b.found.nets if net.is_global)
    return *b.block(net), [f"Net 0 ({net.name})"]


def two_nets_turned(b):
    one, two = b.one(zip(b.found.nets, b.found.nets[1:]))
    (first, middle), (_, last) = b.block(one), b.block(two)
    return first, last, b.lines[middle:last] + b.lines[first - 1:middle]


def another_array(b):
    nx, ny = b.found.size
    return instead(Elem(b.found.size_line, "", (), "", 0), f"Array size: {nx + 1} x {ny} logic blocks.")


def all_tracks_turned(b):
    """Every track counted from the other end of the channels."""
    changed = {e.line: told(e, b.width - 1 - e.number) for e in b.elems if e.is_channel()}
    first, last = min(changed, default=1), max(changed, default=0)
    return first, last, [changed.get(k, b.lines[k - 1]) for k in range(first, last + 1)]


def tree_in_another_order(b):
    """The branches of a net anew, by its sinks from the last to the first."""
    net = b.branch()[0]
    ways, way, made, seen = {}, [], [], set()
    for branch in b.branches(net):
        way = ways.get(told(branch[0]), [told(branch[0])])
        for e in branch[1:]:
            way = way + [told(e)]
            ways.setdefault(way[-1], way)
    for branch in reversed(b.branches(net)):
        way = ways[told(branch[-1])]
        known = max((k for k, line in enumerate(way) if line in seen), default=0)
        made += way[known:]
        seen.update(way)
    return net.elems[0].line, net.elems[-1].line, made


def to_the_other_wire(b):
    """A branch at the net's other wire of a cell."""
    net, branch = b.branch()
    start, other = b.one((e, other) for e in branch for other in net.elems
                         if e.is_channel() and e.at() == other.at() and e.number != other.number)
    return instead(start, told(other))


def there_and_back(b):
    """From a channel over the next one back to itself, in branch position."""
    net = b.net()
    one, two = b.one((one, two) for one, two in zip(net.elems, net.elems[1:])
                     if one.is_channel() and two.is_channel())
    return behind(net.elems[-1], told(one), told(two), told(one))


def comments_between(b):
    e = b.elem()
    return instead(e, "# a comment", "", told(e) + " # and one behind")


def comments_and_a_track(b):
    e = b.channel()
    return instead(e, "", "# a comment", told(e, b.width))


# The changes, each with how many are drawn of each base.
CHANGES = {
    nothing: 1, track_raised: 2, track_lowered: 2, track_at_the_width: 1, track_past_all: 1,
    two_tracks_at_the_width: 1, wire_of_an_earlier_net: 2, wire_of_a_later_net: 2, net_raised: 3, detour: 4,
    branch_from_another_track: 2, branch_without_its_start: 1, branch_from_another_nets_wire: 1,
    branch_from_the_output: 1, branch_from_the_source: 1, branch_of_an_input_alone: 1, branch_left_out: 1,
    branch_twice: 1, last_line_left_out: 1, last_input_left_out: 1, sink_left_out: 1, cell_twice: 1,
    cell_left_out: 1, way_back: 1, to_and_fro: 1, two_cells_turned: 1, cell_of_another_net: 2, cell_beside: 2,
    input_of_its_class: 2, output_for_an_input: 1, input_for_global_nets: 1, input_that_is_not_there: 1,
    input_for_an_output: 1, another_pad: 2, another_class: 1, sink_of_another_net: 1, end_of_another_net: 1,
    source_of_another_net: 1, start_of_another_net: 1, source_left_out: 1, line_twice: 2, line_left_out: 2,
    two_lines_turned: 2, net_left_out: 1, end_left_out: 2, net_twice: 1, net_without_lines: 1, unknown_net: 1,
    name_of_another_net: 1, ordinary_net_as_global: 1, global_net_as_ordinary: 1, two_nets_turned: 1,
    another_array: 1, all_tracks_turned: 1, tree_in_another_order: 2, comments_between: 1, comments_and_a_track:
    1,
}


# The changes of routings within a reach.
WITHIN_CHANGES = {
    nothing: 1, track_raised: 2, track_at_the_width: 1, net_raised: 1, detour: 2, branch_from_another_track: 2,
    branch_without_its_start: 2, branch_from_the_output: 1, branch_from_the_source: 1, branch_of_an_input_alone: 1,
    branch_left_out: 2, branch_twice: 2, wire_of_an_earlier_net: 1, wire_of_a_later_net: 1, to_the_other_wire: 2,
    there_and_back: 2, last_line_left_out: 1, sink_left_out: 1, cell_twice: 2, cell_left_out: 2, way_back: 2,
    to_and_fro: 2, cell_of_another_net: 1, cell_beside: 1, another_pad: 1, line_twice: 2, line_left_out: 2,
    net_twice: 1, tree_in_another_order: 2, another_array: 1, end_left_out: 1,
}


def is_read(text):
    """Whether the text is taken as a route, where its lines have the right forms."""
    found = Route(text)
    return not any(net.is_global and net.elems for net in found.nets) and all(
        is_cell(found.size, e.kind, e.place) for net in found.nets for e in net.elems if e.is_channel()
    )


def replaced(text, first, last, lines):
    old = text.split("\n")[:-1]
    return "".join(line + "\n" for line in old[:first - 1] + lines + old[last:])


# The files and the rows.

def designs(program, folder):
    """The architectures and designs, as files of the folder."""
    for name in os.listdir(DESIGNS):
        base, kind = os.path.splitext(name)
        if base in GIVEN and kind in (".arch", ".net", ".place", ".route"):
            shutil.copy(os.path.join(DESIGNS, name), folder)
    subprocess.run([program, "gen", "1", "2", "1", "chain"], cwd=folder, stdout=subprocess.DEVNULL, check=True)
    with open(os.path.join(folder, "subset.arch")) as whole, open(os.path.join(folder, "part.arch"), "w") as part:
        part.write(whole.read().replace("Fc_input 1", "Fc_input 0.5"))
    maker = [sys.executable, os.path.join(HERE, "make_design.py")]
    subprocess.run([*maker, "made", "3", "wilton", "0.75", "0.9", "1"], cwd=folder, check=True)


def names_of(arch, design):
    return [arch + ".arch", design + ".net", design + ".place", design + ".route"]


def routed(program, folder, arch, design, width):
    """A routing at the width."""
    files = [os.path.abspath(os.path.join(folder, name)) for name in names_of(arch, design)]
    with tempfile.TemporaryDirectory() as there:
        words = [program, "route", *files, str(width), "out"]
        subprocess.run(words, cwd=there, stdout=subprocess.DEVNULL, check=True)
        return open(os.path.join(there, "out.route")).read()


def problem_of(folder, arch, design):
    return Problem(*(open(os.path.join(folder, name)).read() for name in names_of(arch, design)))


def answers_to(problem, width, text, *reaches):
    """How a text is judged within each reach, None for none, and then as a routing of the placement."""
    return [
        *(judged(problem, width, text, reach) for reach in reaches),
        placed_judged(problem, width, text, FREE),
        placed_judged(problem, width, text, STRICT),
    ]


def changed_rows(base, name, arch, design):
    """A row for each change that can be made, and how it is judged."""
    for change, count in CHANGES.items():
        for _ in range(count):
            try:
                first, last, lines = change(base)
            except NoPlace:
                break
            text = replaced(base.text, first, last, lines)
            if is_read(text):
                row = f"{change.__name__} {arch} {design} {name} {base.width} {first} {last}"
                yield row + "".join("|" + line for line in lines), answers_to(base.p, base.width, text, None)


def changed_within(base, name, arch, design, reach):
    """The same within a reach, and how it is judged with it and without."""
    for change, count in WITHIN_CHANGES.items():
        for _ in range(count):
            try:
                first, last, lines = change(base)
            except NoPlace:
                break
            text = replaced(base.text, first, last, lines)
            if is_read(text):
                row = f"{change.__name__} {arch} {design} {name} {base.width} {reach} {first} {last}"
                yield row + "".join("|" + line for line in lines), answers_to(base.p, base.width, text, reach, None)


def rows_within(folder, texts, chance):
    """The rows of routings within a reach."""
    rows = []
    for name, arch, design, width, reach in WITHIN:
        if name not in texts:
            with open(os.path.join(folder, design + ".route")) as file:
                text = TREE if name == "tree" else file.read()
            texts[name] = design, width, text
            with open(os.path.join(folder, name + ".routed"), "w") as out:
                out.write(text)
        text = texts[name][2]
        base = Base(problem_of(folder, arch, design), width, text, chance)
        rows += changed_within(base, name, arch, design, reach)
    for name, arch, width, reach in OTHERS_WITHIN:
        design, _, text = texts[name]
        answers = answers_to(problem_of(folder, arch, design), width, text, reach, None)
        rows.append((f"elsewhere {arch} {design} {name} {width} {reach} 1 0", answers))
    return rows


# How a row tells that its text was judged as a routing of the placement.
PLACED = [" placed", " placed strictly"]


def tell(out, name, ways, answers):
    out.writelines(f"{name}{way}: {answer}\n" for way, answer in zip(ways, answers))


def main():
    if len(sys.argv) not in (2, 3):
        sys.exit(__doc__)
    program = os.path.abspath(sys.argv[2] if len(sys.argv) > 2 else BUILT)
    folder = os.path.join(sys.argv[1], "data")
    os.makedirs(folder, exist_ok=True)
    designs(program, folder)
    chance = random.Random(SEED)
    rows, texts = [], {}
    for name, arch, design, width in BASES:
        text = routed(program, folder, arch, design, width)
        texts[name] = design, width, text
        with open(os.path.join(folder, name + ".routed"), "w") as out:
            out.write(text)
        rows += changed_rows(Base(problem_of(folder, arch, design), width, text, chance), name, arch, design)
    for name, arch, more in OTHERS:
        design, width, text = texts[name]
        width = max(1, width + more)
        answers = answers_to(problem_of(folder, arch, design), width, text, None)
        rows.append((f"elsewhere {arch} {design} {name} {width} 1 0", answers))
    within = rows_within(folder, texts, chance)
    with open(os.path.join(folder, "verify.rows"), "w") as out:
        out.writelines(row + "\n" for row, _ in rows)
    with open(os.path.join(folder, "reach.rows"), "w") as out:
        out.writelines(row + "\n" for row, _ in within)
    with open(os.path.join(sys.argv[1], "judged"), "w") as out:
        for row, answers in rows:
            tell(out, row.split()[0], ["", *PLACED], answers)
        for row, answers in within:
            words = row.split()
            tell(out, words[0], [f" within {words[5]}", "", *PLACED], answers)


if __name__ == "__main__":
    main()
