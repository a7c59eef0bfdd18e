"""Packs a table with the flip-flop behind it into a block, and lists the nets between blocks."""
from dataclasses import dataclass, field

from blif import FlipFlop, Input, Table

MOST_BLOCKS = 10_000  # what an array of 100 by 100 has room for


@dataclass
class Block:
    """An input pad, an output pad or a logic block, with the nets of its pins."""

    kind: str  # input, output or clb, as the netlist text says it
    name: str
    line: int
    inputs: list = field(default_factory=list)
    output: str = None
    clock: str = None

    def is_pad(self):
        return self.kind != "clb"


@dataclass
class Net:
    """A net between blocks, which are told by their numbers."""

    name: str
    driver: int
    sinks: list = field(default_factory=list)
    is_global: bool = False

    def blocks(self):
        return [self.driver, *self.sinks]


@dataclass
class Design:
    """Blocks, logic blocks last, and the nets between them in the order of their drivers."""

    circuit: object
    blocks: list
    nets: list

    def refuse(self, line, why):
        self.circuit.refuse(line, why)

    def of_kind(self, kind):
        return [block for block in self.blocks if block.kind == kind]

    def ordinary_nets(self):
        return [net for net in self.nets if not net.is_global]


def packed_tables(logic, readers):
    """Tables by the flip-flop that they go into a block with: its data, which nothing else reads."""
    tables = {table.output: table for table in logic.of_kind(Table) if table.inputs}
    packed = {}
    for flip_flop in logic.of_kind(FlipFlop):
        net = logic.real[flip_flop.data]
        if net in tables and readers[net] == 1:
            packed[flip_flop.output] = tables[net]
    return packed


def logic_blocks(logic):
    """A block for each flip-flop, with its table if it has one, and for each table that is left."""
    readers = logic.readers()
    packed = packed_tables(logic, readers)
    inside = {table.output for table in packed.values()}
    blocks = []
    for net, driver in logic.drivers.items():
        if isinstance(driver, FlipFlop):
            table = packed.get(net)
            pins = logic.pins(table) if table else logic.data_pins(driver)
            line = table.line if table else driver.line
            blocks.append(Block("clb", net, line, pins, net, logic.clock_of(driver)))
        elif isinstance(driver, Table) and net not in inside and readers[net] > 0:
            blocks.append(Block("clb", net, driver.line, logic.pins(driver), net))
    return blocks


def pads_of(logic):
    """Pads for the inputs that are read, and for the outputs."""
    blocks = [Block("input", driver.output, driver.line, output=driver.output)
              for driver in logic.of_kind(Input)]
    for net, line in logic.circuit.outputs.items():
        blocks.append(Block("output", f"out:{net}", line, inputs=[logic.real[net]]))
    return blocks


def refuse_wide(logic, blocks, inputs):
    for block in blocks:
        if len(block.inputs) > inputs:
            logic.circuit.refuse(block.line, f"a table of {len(block.inputs)} inputs; at most {inputs} "
                                             f"are due (abc -lut {inputs}, or --inputs)")


def nets_between(blocks, most_sinks):
    """The nets of the blocks; clocks are global, and so are nets with more sinks than `most_sinks`."""
    nets = {block.output: Net(block.output, number)
            for number, block in enumerate(blocks) if block.output is not None}
    for number, block in enumerate(blocks):
        for name in block.inputs:
            nets[name].sinks.append(number)
        if block.clock is not None:
            nets[block.clock].sinks.append(number)
            nets[block.clock].is_global = True
    for net in nets.values():
        net.is_global = net.is_global or len(net.sinks) > most_sinks
    return list(nets.values())


def rename(names):
    """Words for names as the netlist and the route take them, different ones for different names.

    `open` says that a pin has no net there, and a backslash at the end would join lines.
    """
    words, taken = {}, set(names)
    for name in names:
        word = name
        while word == "open" or word.endswith("\\") or word != name and word in taken:
            word += "_"
        taken.add(word)
        words[name] = word
    return words


def renamed(blocks, nets):
    """The same design in words that the texts take."""
    net_words = rename([net.name for net in nets])
    block_words = rename([block.name for block in blocks])
    for block in blocks:
        block.name = block_words[block.name]
        block.inputs = [net_words[name] for name in block.inputs]
        block.output = net_words.get(block.output)
        block.clock = net_words.get(block.clock)
    for net in nets:
        net.name = net_words[net.name]


def pack(logic, inputs, most_sinks):
    """The design of the circuit, in blocks of one table of so many inputs and a flip-flop."""
    clusters = logic_blocks(logic)
    refuse_wide(logic, clusters, inputs)
    if len(clusters) > MOST_BLOCKS:
        logic.circuit.refuse(clusters[MOST_BLOCKS].line,
                             f"the {MOST_BLOCKS + 1:,}st logic block; at most {MOST_BLOCKS:,} are due")
    blocks = pads_of(logic) + clusters
    nets = nets_between(blocks, most_sinks)
    renamed(blocks, nets)
    return Design(logic.circuit, blocks, nets)
