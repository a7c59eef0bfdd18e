"""What of a circuit needs blocks: no wires, no constants, nothing that no output depends on.

Here the circuit is looked at as a whole, and refused where a net has no driver or two, or where tables
drive each other in a ring without a flip-flop.
"""
from dataclasses import dataclass

from blif import FlipFlop, Input, Table


@dataclass
class Logic:
    """The live part of a circuit. `real` gives the net that is at the far end of wires."""

    circuit: object
    drivers: dict  # real net: its Input, Table or FlipFlop, in the order of the file
    real: dict
    unread: int  # drivers that no output depends on, constants aside

    def of_kind(self, kind):
        return [driver for driver in self.drivers.values() if isinstance(driver, kind)]

    def is_constant(self, net):
        return is_constant(self.drivers[net])

    def pins(self, table):
        """The nets that a table needs: each once and no constant, since its rows can say the rest."""
        nets = dict.fromkeys(self.real[net] for net in table.inputs)
        return [net for net in nets if not self.is_constant(net)]

    def data_pins(self, flip_flop):
        """The net that a flip-flop takes, or none where that is a constant."""
        net = self.real[flip_flop.data]
        return [] if self.is_constant(net) else [net]

    def clock_of(self, flip_flop):
        return self.real[flip_flop.clock] if flip_flop.clock else None

    def readers(self):
        """How many pins read each net, outputs among them."""
        readers = dict.fromkeys(self.drivers, 0)
        read = [self.real[net] for net in self.circuit.outputs]
        for table in self.of_kind(Table):
            read += self.pins(table)
        for flip_flop in self.of_kind(FlipFlop):
            read += self.data_pins(flip_flop)
            read += [self.clock_of(flip_flop)] if flip_flop.clock else []
        for net in read:
            readers[net] += 1
        return readers


def is_constant(driver):
    return isinstance(driver, Table) and not driver.inputs


def drivers_of(circuit):
    """Each net with what drives it."""
    drivers = {}
    for driver in circuit.drivers:
        if driver.output in drivers:
            circuit.refuse(driver.line, f"net {driver.output} has a driver already; one is due")
        drivers[driver.output] = driver
    return drivers


def refuse_undriven(circuit, drivers):
    read = [(line, net) for net, line in circuit.outputs.items()]
    read += [(driver.line, net) for driver in circuit.drivers for net in driver.reads()]
    for line, net in sorted(read):
        if net not in drivers:
            circuit.refuse(line, f"net {net} has no driver; an input, a .names or a .latch is due")


def refuse_loops(circuit):
    """Takes away tables whose inputs are all gone; what stays is on a loop or behind one."""
    tables = {table.output: table for table in circuit.of_kind(Table)}
    waits = {net: sum(name in tables for name in table.inputs) for net, table in tables.items()}
    behind = {net: [] for net in tables}
    for net, table in tables.items():
        for name in table.inputs:
            if name in tables:
                behind[name].append(net)
    free = [net for net, count in waits.items() if count == 0]
    while free:
        net = free.pop()
        del waits[net]
        for other in behind[net]:
            waits[other] -= 1
            if waits[other] == 0:
                free.append(other)
    if waits:
        loop = loop_among(tables, waits)
        first = min(loop, key=lambda net: tables[net].line)
        circuit.refuse(tables[first].line, f"net {first} depends on itself, in a loop of {len(loop)} "
                                           "tables; a flip-flop is due in each loop")


def loop_among(tables, waiting):
    """The nets of a loop: each net that waits reads one that waits, so that going back comes round."""
    net, order = next(iter(waiting)), {}
    while net not in order:
        order[net] = len(order)
        net = next(name for name in tables[net].inputs if name in waiting)
    return [name for name in order if order[name] >= order[net]]


def real_names(drivers):
    """For each net the one at the far end of wires, which form no loop."""
    real = {}
    for net in drivers:
        way = [net]
        while way[-1] not in real and drivers[way[-1]].is_wire():
            way += drivers[way[-1]].reads()
        end = real.get(way[-1], way[-1])
        real.update((name, end) for name in way)
    return real


def live_nets(circuit, drivers, real):
    """Each net that an output depends on."""
    live, ahead = set(), [real[net] for net in circuit.outputs]
    while ahead:
        net = ahead.pop()
        if net not in live:
            live.add(net)
            ahead += [real[name] for name in drivers[net].reads()]
    return live


def logic_of(circuit):
    """The part of the circuit that needs blocks."""
    drivers = drivers_of(circuit)
    refuse_undriven(circuit, drivers)
    refuse_loops(circuit)
    real = real_names(drivers)
    live = live_nets(circuit, drivers, real)
    unread = sum(real[net] == net and net not in live and not is_constant(drivers[net]) for net in drivers)
    return Logic(circuit, {net: drivers[net] for net in drivers if net in live}, real, unread)
