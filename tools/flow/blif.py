"""Reads BLIF as `yosys` and `abc` write it: one flat model of tables and flip-flops.

The reader keeps the line of each thing, because all that is refused later is told by its line.
"""
from dataclasses import dataclass, field

from refusal import Refusal

# Lines that say nothing about which wires there are.
SKIPPED = {
    ".area", ".attr", ".cname", ".clock", ".default_input_arrival", ".default_input_drive",
    ".default_max_input_load", ".default_output_load", ".default_output_required", ".delay",
    ".input_arrival", ".input_drive", ".latch_order", ".max_input_load", ".output_load",
    ".output_required", ".param", ".wire_load_slope",
}
EDGES = ("re", "fe")
INITIAL_VALUES = ("0", "1", "2", "3")


@dataclass
class Input:
    """A net of `.inputs`."""

    output: str
    line: int

    def reads(self):
        return []

    def is_wire(self):
        return False


@dataclass
class Table:
    """A `.names`: a net as a function of others, by the rows of its cover."""

    output: str
    inputs: list
    line: int
    rows: list = field(default_factory=list)

    def reads(self):
        return self.inputs

    def is_wire(self):
        """Whether the output is its one input, as where a net has a second name."""
        return len(self.inputs) == 1 and self.rows in (["11"], ["00"])


@dataclass
class FlipFlop:
    """A `.latch` that takes its data at an edge of its clock, or of an implied one."""

    data: str
    output: str
    clock: str
    line: int

    def reads(self):
        return [net for net in (self.data, self.clock) if net]

    def is_wire(self):
        return False


@dataclass
class Circuit:
    """What drives nets, in the order of the file, and which nets go out, with their lines.

    Where the text was made of Verilog, `declared` has the lines of nets there, and these are told.
    """

    file: str
    model: str = ""
    drivers: list = field(default_factory=list)
    outputs: dict = field(default_factory=dict)
    declared: dict = None

    def of_kind(self, kind):
        return [driver for driver in self.drivers if isinstance(driver, kind)]

    def refuse(self, line, why):
        raise Refusal(self.file, line if self.declared is None else self.declared_at(line), why)

    def declared_at(self, line):
        """The line of the Verilog for the nets of a line of the text that was made of it, if one is known."""
        nets = [driver.output for driver in self.drivers if driver.line == line]
        nets += [net for net, at in self.outputs.items() if at == line]
        lines = [self.declared.get(net) or self.declared.get(net.split("[")[0]) for net in nets]
        return next(filter(None, lines), None)


def logical_lines(text):
    """The words of each line with words, and the number of its first part: a backslash joins lines."""
    words, first = [], 0
    for number, line in enumerate(text.split("\n"), 1):
        line = line.split("#")[0].rstrip()
        first = first or number
        words += line.rstrip("\\").split()
        if not line.endswith("\\"):
            if words:
                yield first, words
            words, first = [], 0
    if words:
        yield first, words


class Reader:
    """Takes line after line into a circuit."""

    def __init__(self, file):
        self.circuit = Circuit(file)
        self.table = None  # the table whose cover is being read
        self.ended = False
        self.forms = {
            ".model": self.take_model, ".inputs": self.take_inputs, ".outputs": self.take_outputs,
            ".names": self.take_names, ".latch": self.take_latch, ".end": self.take_end,
        }

    def take(self, line, words):
        key = words[0]
        if not key.startswith("."):
            self.take_row(line, words)
            return
        self.table = None
        if self.ended or key == ".model" and self.circuit.model:
            self.circuit.refuse(line, "a second model; one flat model is due (yosys: flatten)")
        if key in self.forms:
            self.forms[key](line, words[1:])
        elif key not in SKIPPED:
            self.circuit.refuse(line, f"{key} is not taken; .names and .latch are due "
                                      "(yosys: flatten, dfflegalize, techmap)")

    def take_model(self, line, words):
        self.circuit.model = words[0] if words else "top"

    def take_inputs(self, line, words):
        self.circuit.drivers += [Input(net, line) for net in words]

    def take_outputs(self, line, words):
        for net in words:
            if net in self.circuit.outputs:
                self.circuit.refuse(line, f"{net} is an output already")
            self.circuit.outputs[net] = line

    def take_names(self, line, words):
        if not words:
            self.circuit.refuse(line, ".names without a net; at least its output is due")
        self.table = Table(words[-1], words[:-1], line)
        self.circuit.drivers.append(self.table)

    def take_row(self, line, words):
        if self.table is None:
            self.circuit.refuse(line, f"{words[0]} begins no line of BLIF, and there is no cover here")
        width = len(self.table.inputs)
        row = "".join(words)
        has_form = len(words) == (2 if width else 1) and len(row) == width + 1
        if not has_form or set(row[:-1]) - set("01-") or row[-1] not in "01":
            self.circuit.refuse(line, f"a row of a cover is due: {width} of 0, 1 and -, and a value")
        self.table.rows.append(row)

    def take_latch(self, line, words):
        kind, clock = words[2:4] if len(words) >= 4 else ("re", "NIL")
        initial = words[-1] if len(words) in (3, 5) else "3"
        if not 2 <= len(words) <= 5 or initial not in INITIAL_VALUES:
            self.circuit.refuse(line, ".latch DATA OUTPUT [KIND CLOCK] [INITIAL] is due")
        if kind not in EDGES:
            self.circuit.refuse(line, f"a latch of kind {kind}; a flip-flop is due, of kind re or fe")
        clock = None if clock == "NIL" else clock
        self.circuit.drivers.append(FlipFlop(words[0], words[1], clock, line))

    def take_end(self, line, words):
        self.ended = True


def read_text(file):
    try:
        with open(file, encoding="utf-8", errors="surrogateescape") as source:
            return source.read()
    except OSError as error:
        raise Refusal(file, None, f"it can't be read: {error.strerror}") from error


def read_blif(file, text=None, declared=None):
    """The circuit that the file says, or that a text says which was made of the file, with the lines of its nets."""
    text = read_text(file) if text is None else text
    reader = Reader(file)
    reader.circuit.declared = declared
    for line, words in logical_lines(text):
        reader.take(line, words)
    if not reader.circuit.model and not reader.circuit.drivers and not reader.circuit.outputs:
        reader.circuit.refuse(None, "it is empty; a model with an output is due")
    if not reader.circuit.outputs:
        reader.circuit.refuse(text.count("\n") + 1, "the end, and no .outputs; an output is due")
    return reader.circuit
