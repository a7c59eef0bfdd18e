"""What is to be said on standard error of a width without a routing, of one that is open, and of a fault, by plain lists.

The files that refute it, and the command that looks at all routes of the placement, or what can be tried next; then
what is seen without a search: a cell that more nets want than there are tracks; under subset switch blocks a crowd of
nets that share cells, each with each, and are more, or else a net whose pins open no track in common; which option
helps. Of a fault what stands behind its code: what is at fault, by its name, or its line as it stands.
"""
import re
from collections import Counter
from decimal import ROUND_HALF_UP, Decimal
from asked import answer_help

answer_help(__name__, __doc__)

VALUED = ("--conflicts", "--seconds", "--reach", "--members", "--seed", "--from", "--rounds")
FLAGS = ("--keep", "--count", "--pin", "--symmetry", "--free", "--strict", "--stats")
BUDGET, BUDGET_LIMIT, ROUND_LIMIT, WIDTH_LIMIT, NAMED = 1_000_000, 100_000_000, 100_000, 64, 10
ROUNDS = 500  # at most, where the words name no number
START_LIMIT, CROWD_LIMIT = 512, 128
CELL_LEAD = "More nets than there are tracks want the cell "
CROWD_LEAD = "Under subset switch blocks more nets than there are tracks share cells, each with each:"
PIN = re.compile(r"\((\d+),(\d+)\)(Pin|Pad):(\d+)")
COUNT = "With --count that is shown without a search."
ORDER = "Tracks may change places here: with --symmetry the search keeps them in one order."


class Words:
    """The words of a run: the command, the words behind it, and the options with their values."""

    def __init__(self, words):
        self.command, self.plain, self.options = (words[0] if words else ""), [], {}
        rest = list(words[1:])
        while rest:
            word = rest.pop(0)
            name, _, value = word.partition("=")
            if name in VALUED:
                self.options[name] = value or rest.pop(0)
            elif name in FLAGS:
                self.options[name] = True
            else:
                self.plain.append(word)

    @property
    def prefix(self):
        return self.plain[-1]

    @property
    def is_climb(self):
        return self.command in ("sweep", "trial")

    @property
    def within(self):
        reach = self.options.get("--reach")
        return f" within {int(reach)} joins of wires" if reach else ""


def unroutable(words, width):
    """The lines that say that no routing of a width is legal, and what refutes it."""
    prefix = words.prefix
    if words.is_climb:
        return [
            f"No routing with up to {width} tracks is legal{words.within}: "
            f"{prefix}.wK.lrat refutes {prefix}.wK.cnf for each width K.",
            f"To check the last: gafkelam check {prefix}.w{width}.cnf {prefix}.w{width}.lrat",
            *elsewhere(words, width),
        ]
    return [
        f"No routing with {width} tracks is legal{words.within}: "
        f"{prefix}.lrat refutes the clauses of one, {prefix}.cnf.",
        f"To check that: gafkelam check {prefix}.cnf {prefix}.lrat",
        *elsewhere(words, width),
    ]


def elsewhere(words, width):
    """The line that says for which global route that is so, and what speaks of all of the placement."""
    if words.command not in ("route", "sweep"):
        return []
    arch, net, place, route = words.plain[:4]
    return [
        f"This holds for the global route of {route}. To look among all of this placement: "
        f"gafkelam least {arch} {net} {place} {width} {words.prefix}"
    ]


def undecided(words, width, learned):
    """The lines that say that a width is open, and what can be tried next."""
    stopped = learned < int(words.options.get("--conflicts", BUDGET))
    first = (
        f"Whether a routing with {width} tracks is legal{words.within} is open: the search learned {learned} "
        + ("clauses before its time was over." if stopped else "clauses, its budget.")
    )
    more = "No greater budget is taken: "
    if stopped:
        more = "Try more --seconds, or "
    elif learned < BUDGET_LIMIT:
        more = f"Try --conflicts {min(10 * learned, BUDGET_LIMIT)}, or "
    if words.is_climb:
        greater = ", or route at a greater width." if width < WIDTH_LIMIT else "."
        return [first, f"{more}hand {words.prefix}.w{width}.cnf to another solver{greater}"]
    return [first, f"{more}hand {words.prefix}.cnf to another solver, or try another width."]


def lines_of(text):
    """The lines of a file, by their words, without what stands behind a #."""
    return [line.split("#")[0].split() for line in text.decode("latin-1").split("\n")]


def said_name(name):
    return "".join(c if "!" <= c <= "~" else f"\\x{ord(c):02x}" for c in name)


class Slots:
    """The slots of a route, each a net and a cell, in the order of their first lines, and the trees that steps make."""

    def __init__(self, route):
        self.names, self.slots, self.steps, self.pin_steps = [], [], [], []
        number, last, pin = {}, None, None
        for line in lines_of(route):
            if line[:1] == ["Net"]:
                self.names.append(said_name(re.sub(r"\):?$", "", line[2][1:])))
                last, pin = None, None
            elif line and line[0] in ("CHANX", "CHANY"):
                slot = len(self.names) - 1, f"{line[0]} {''.join(line[1:]).split('Track')[0]}"
                if slot not in number:
                    number[slot] = len(self.slots)
                    self.slots.append(slot)
                if last is not None:
                    self.steps.append((last, number[slot]))
                if pin is not None:
                    self.pin_steps.append((pin, number[slot]))
                last, pin = number[slot], None
            elif line and line[0] in ("OPIN", "IPIN"):
                x, y, kind, which = PIN.match("".join(line[1:])).groups()
                pin = kind, int(x), int(y), int(which)
                if last is not None:
                    self.pin_steps.append((pin, last))
                last = None
            elif line:
                last, pin = None, None

    def name_of(self, slot):
        return self.names[self.slots[slot][0]]

    def roots(self):
        """For each slot the first one of its tree: that of the earlier slot from which a first step leads to it."""
        before, roots = {}, []
        for step in self.steps:
            if step[0] != step[1]:
                before.setdefault(max(step), min(step))
        for slot in range(len(self.slots)):
            roots.append(roots[before[slot]] if slot in before else slot)
        return roots

    def listed(self, row):
        """The names of the nets of these slots, no more than ten of them."""
        return listed([self.name_of(slot) for slot in row])

    def trackless_line(self, arch, width):
        """The line about the first tree that no track serves, if there is one."""
        roots, boxes = self.roots(), Boxes(arch, width)
        pins = {}
        for pin, slot in self.pin_steps:
            pins.setdefault(roots[slot], []).append(pin)
        for tree in sorted(pins):
            if not set.intersection(*map(boxes.opened, pins[tree])):
                net, places = self.name_of(tree), listed([f"({x},{y})" for _, x, y, _ in pins[tree]])
                return f"No track serves the net {net} even alone: its pins at{places} open none in common."
        return None

    def crowded_cell(self, width):
        """The line about the first cell that comes to more slots than tracks, if there is one."""
        held = {}
        for slot, (_, cell) in enumerate(self.slots):
            held.setdefault(cell, []).append(slot)
            if len(held[cell]) > width:
                return f"{CELL_LEAD}{cell}:{self.listed(held[cell])}"
        return None

    def crowd_line(self, width):
        """The line about a crowd of more trees than tracks, if there is one."""
        row = Crowd(self).trees()
        return CROWD_LEAD + self.listed(row[: width + 1]) if len(row) > width else None


class Crowd:
    """Trees of which each two are of different nets and share a cell."""

    def __init__(self, slots):
        self.slots, self.roots = slots.slots, slots.roots()
        self.cells = {}
        for slot, root in enumerate(self.roots):
            self.cells.setdefault(root, set()).add(self.slots[slot][1])

    def meet(self, a, b):
        return self.slots[a][0] != self.slots[b][0] and bool(self.cells[a] & self.cells[b])

    def gathered(self, cell):
        """The trees of a cell and then all, each if it meets those that were taken before."""
        of_cell = [root for slot, root in enumerate(self.roots) if self.slots[slot][1] == cell]
        taken = []
        for tree in dict.fromkeys(of_cell + self.roots):
            if len(taken) < CROWD_LIMIT and all(self.meet(tree, other) for other in taken):
                taken.append(tree)
        return taken

    def trees(self):
        """The first of the longest rows that are gathered from the cells of large trees."""
        size = Counter(self.roots)
        large = [slot for slot, root in enumerate(self.roots) if max(size.values()) <= 2 * size[root]]
        rows = [self.gathered(cell) for cell in dict.fromkeys(self.slots[slot][1] for slot in large[:START_LIMIT])]
        return max(rows, key=len, default=[])


def listed(words):
    """The words, each behind a blank, no more than ten of them."""
    more = f" and {len(words) - NAMED} more" if len(words) > NAMED else ""
    return "".join(f" {word}" for word in words[:NAMED]) + more


class Boxes:
    """The connection boxes of an architecture at a width: how many tracks a pin opens, and which."""

    def __init__(self, arch, width):
        self.values, self.width = values_of(arch), width
        kinds = [line[0] for line in lines_of(arch) if line and line[0] in ("inpin", "outpin")]
        self.box_of = ["Fc_input" if kind == "inpin" else "Fc_output" for kind in kinds]

    def count(self, box):
        share = Decimal(self.values[box])
        if self.values["Fc_type"] == "fractional":
            share = (share * self.width).to_integral_value(ROUND_HALF_UP)
        return min(max(int(share), 1), self.width)

    @property
    def are_full(self):
        return all(self.count(box) == self.width for box in ("Fc_output", "Fc_input", "Fc_pad"))

    def opened(self, pin):
        """The tracks that the pin opens, spread evenly from that of its number on."""
        kind, _, _, number = pin
        count = self.count("Fc_pad" if kind == "Pad" else self.box_of[number])
        return {(k * self.width // count + number) % self.width for k in range(count)}


def values_of(arch):
    return {line[0]: line[1] for line in lines_of(arch) if len(line) > 1}


def seen_lines(words, is_open, width, files):
    """What is seen without a search of the problem of the files, where there are files and no reach."""
    if words.command not in ("route", "sweep", "core") or "--reach" in words.options:
        return []
    arch, slots = files[words.plain[0]], Slots(files[words.plain[3]])
    blocks = values_of(arch)["switch_block_type"]
    crowded = slots.crowded_cell(width) or (slots.crowd_line(width) if blocks == "subset" else None)
    searches = words.command != "core"
    if crowded:
        return [crowded] + ([COUNT] if searches and "--count" not in words.options else [])
    trackless = slots.trackless_line(arch, width) if blocks == "subset" else None
    if trackless:
        return [trackless]
    may_order = is_open and not {"--pin", "--symmetry"} & set(words.options)
    if may_order and blocks in ("subset", "universal") and Boxes(arch, width).are_full:
        return [ORDER]
    return []


def unfound(words, width, rounds):
    """The lines that say that rounds have found no route of a placement, and what can be tried."""
    were_all = rounds >= int(words.options.get("--rounds", ROUNDS))
    tries = [f"--rounds {min(10 * rounds, ROUND_LIMIT)}"] if were_all and rounds < ROUND_LIMIT else []
    tries += [] if "--free" in words.options else ["--free"]
    last = "a greater width or another placement" if width < WIDTH_LIMIT else "another placement"
    return [
        f"Whether there is a route with {width} tracks is open: the search found none in {rounds} rounds.",
        "Try " + ", ".join(tries + [last]) + ".",
    ]


def no_way(width):
    """The lines that say that no wires reach a sink of a net."""
    return [
        f"There is no route with {width} tracks: of the net that the first line names, none of the wires that its "
        "driver opens leads to one that a sink of it opens, whatever the other nets have.",
        "Another width, other boxes or other switch blocks may have a way.",
    ]


def words_of(given, report, files):
    """What is to be said of a report of a width without a routing, or of an open one; None of another report."""
    found = re.fullmatch(r"undecided (\d+) after (\d+) rounds", report)
    if found:
        return "\n".join(unfound(Words(given), int(found[1]), int(found[2])))
    found = re.fullmatch(r"no way (\d+)", report)
    if found:
        return "\n".join(no_way(int(found[1])))
    found = re.fullmatch(r"(unroutable|undecided) (\d+)(?: after (\d+) learned clauses)?", report)
    if not found:
        return None
    words, width = Words(given), int(found[2])
    is_open = found[1] == "undecided"
    first = undecided(words, width, int(found[3])) if is_open else unroutable(words, width)
    return "\n".join(first + seen_lines(words, is_open, width, files))


# ---- faults

FAULT = re.compile(r"fault: (\w+) line (\d+) code (\d+)|not legal: line (\d+) cause (\d+)")
KEYWORDS = (
    "io_rat chan_width_io chan_width_x chan_width_y inpin outpin switch_block_type Fc_type Fc_output Fc_input Fc_pad "
    "segment"
).split()
BLOCKS = {".input": 0, ".output": 1, ".clb": 2}
FOREIGN = (
    ((b"\x1f\x8b",), "The file is packed with gzip, and is to be unpacked first."),
    ((b"\xff\xfe", b"\xfe\xff"), "The file begins as UTF-16 does, and is to be a text of single bytes."),
    ((b"\xef\xbb\xbf",), "The file begins with a byte order mark, which is to be taken away."),
    (
        (b"<",),
        "The file begins as XML does, as those of later versions of VPR: read are the texts of VPR 4.30, DIMACS and "
        "LRAT.",
    ),
    (
        (b"Netlist_File:", b"Placement_File:"),
        "The file begins as those of VPR 8 and 9 do: tools/vtr makes one of VPR 4.30 of it, which is read here.",
    ),
)
WORD_LIMIT, BYTE_LIMIT = 7, 60


def file_names(words):
    """The names that the words give, by the kinds that reports name."""
    plain = words.plain
    if words.command == "check":
        return dict(zip(("cnf", "lrat"), plain))
    named = dict(zip(("architecture", "netlist", "placement"), plain))
    if words.command in ("route", "sweep", "encode", "decode", "core", "verify"):
        named["route"] = plain[3]
    if words.command == "decode":
        named["model"] = plain[5]
    if "--from" in words.options:
        named["route"] = words.options["--from"]
    if words.command in ("verify", "judge"):
        named["routed"] = plain[-1]
    return named


class NumberedLines:
    """The words of each line of a file that has some, by its number."""

    def __init__(self, text, kind):
        parts = text.decode("latin-1").split("\n")
        begun = None
        self.words = {}
        for number, part in enumerate(parts[:-1] if parts[-1] == "" else parts, 1):
            if kind not in ("cnf", "lrat", "model"):
                part = part.split("#")[0]
            goes_on = kind in ("architecture", "netlist") and part.rstrip(" \t\r").endswith("\\")
            if goes_on:
                part = part.rstrip(" \t\r")[:-1]
            words = [word for word in re.split("[ \t\r]+", part) if word]
            at = number if begun is None else begun
            self.words[at] = self.words.get(at, []) + words
            begun = at if goes_on else None
        self.words = {number: words for number, words in self.words.items() if words}

    def quoted(self, number, behind=0):
        """The words of a line, of many the first and of a long one the front."""
        words = self.words[number][behind:]
        cut = [said_name(word) if len(word) <= BYTE_LIMIT else said_name(word[:BYTE_LIMIT]) + ".." for word in words]
        return "".join(f" {word}" for word in cut[:WORD_LIMIT]) + (" .." if len(cut) > WORD_LIMIT else "")

    def line_as_it_stands(self, number, in_net):
        if number not in self.words:
            return ""
        nets = [at for at, words in self.words.items() if words[0] == "Net" and at <= number] if in_net else []
        net = f", of Net{self.quoted(nets[-1], 1)}" if nets and nets[-1] != number else ""
        return f":{self.quoted(number)}{net}"


class Pins:
    """The nets on the pins of a netlist: for each pinlist its line and, for each pin, its number, its kind and its net."""

    def __init__(self, netlist, arch=None):
        self.globals, self.blocks, self.lists = {"open"}, [], []
        kinds = [words for words in arch.words.values() if words[0] in ("inpin", "outpin")] if arch else []
        begun = None
        for number, words in netlist.words.items():
            if words[0] == ".global":
                self.globals |= set(words[1:])
            if words[0] == "pinlist:":
                pins = {".input": [["outpin"]], ".output": [["inpin"]]}.get(begun, kinds)
                self.lists.append((number, words[1:], list(zip(range(len(pins)), pins, words[1:]))))
            begun = words[0] if words[0] in BLOCKS else None
            self.blocks += [(BLOCKS[words[0]], name) for name in words[1:]] if begun else []

    def ordinary(self, number):
        """The ordinary nets of the pinlist on a line, with their pins."""
        return [use for at, _, uses in self.lists if at == number for use in uses if use[2] not in self.globals]

    def of_kind(self, kind):
        """The ordinary nets on pins of a kind, in order."""
        return [net for _, _, uses in self.lists for _, pin, net in uses if pin[0] == kind and net not in self.globals]

    def driver_words(self):
        driven, seen = self.of_kind("outpin"), set()
        for net in driven:
            if net in seen:
                return f": net {said_name(net)} has a second one here"
            seen.add(net)
        return net_words([net for net in self.of_kind("inpin") if net not in seen], " has none")

    def sinkless_words(self):
        ended = set(self.of_kind("inpin"))
        return net_words([net for net in self.of_kind("outpin") if net not in ended])

    def global_pin_words(self, number):
        found = [(pin, net) for pin, kind, net in self.ordinary(number) if "global" in kind[3:4]]
        return f": net {said_name(found[0][1])}, pin {found[0][0]}" if found else ""

    def shared_class_words(self, number):
        uses = self.ordinary(number)
        for i, (pin, kind, net) in enumerate(uses):
            for other, kind_of_other, other_net in uses[i + 1 :]:
                if net == other_net and class_of(kind) == class_of(kind_of_other):
                    return f": net {said_name(net)}, pins {pin} and {other}"
        return ""

    def unplaced_words(self, placement):
        placed = {words[0] for words in list(placement.words.values())[2:]}
        left = [name for _, name in sorted(self.blocks, key=lambda block: block[0]) if name not in placed]
        return f": block {said_name(left[0])}" if left else ""

    def lineless_words(self, route):
        nets = {net_on(words) for words in route.words.values() if words[0] == "Net"}
        named = [net for _, words, _ in self.lists for net in words]
        return net_words([net for net in named if net not in nets and net not in self.globals])


def net_words(nets, end=""):
    return f": net {said_name(nets[0])}{end}" if nets else ""


def class_of(kind):
    return int(kind[2])


def net_on(words):
    """The net of a Net line: behind the name of a global one stands a colon."""
    return words[2][1:-1] if len(words) == 3 else words[2][1:-2]


def shown_of(given, report, files):
    """What is to stand behind the code of a fault, or behind a cause; None of another report."""
    found = FAULT.fullmatch(report)
    if not found:
        return None
    words, judged = Words(given), found[1] is None
    kind, line = ("routed", int(found[4])) if judged else (found[1], int(found[2]))
    code = int(found[5] if judged else found[3])
    names = file_names(words)

    def lines(kind):
        return NumberedLines(files[names[kind]], kind)

    def pins():
        return Pins(lines("netlist"), lines("architecture"))

    own = lines(kind)
    of_names = {
        204: lambda: pins().driver_words(),
        205: lambda: pins().sinkless_words(),
        206: lambda: pins().global_pin_words(line),
        207: lambda: pins().shared_class_words(line),
        305: lambda: Pins(lines("netlist")).unplaced_words(own),
        502: lambda: Pins(lines("netlist")).lineless_words(own),
    }
    if code in of_names:
        return of_names[code]()
    if judged and line not in own.words:
        return Pins(lines("netlist")).lineless_words(own)
    for fronts, sentence in FOREIGN:
        if not judged and files[names[kind]].startswith(fronts):
            return f"\n{sentence}"
    if code == 101:
        begun = {words[0] for words in own.words.values()}
        return "".join(f", no {word}" for word in KEYWORDS if word not in begun)
    return own.line_as_it_stands(line, kind in ("route", "routed"))


def behind_code(said):
    """What stands behind the code or the cause in what was said."""
    return re.split(r" \((?:code|cause) \d+\)", said, maxsplit=1)[-1]
