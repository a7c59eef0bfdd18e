"""Makes BLIF of Verilog with `yosys`, which calls `abc` for the tables.

What the Verilog has that a design can't have is looked for in what yosys read, and refused with its line there. What
is changed on the way is noted, and each warning of yosys is handed on.
"""
import json
import os
import re
import shutil
import subprocess
import tempfile
from dataclasses import dataclass, field

from blif import read_text
from refusal import Refusal

READ = 'read_verilog -sv "{file}"\n'
LIST = READ + 'proc\nwrite_json "{folder}/listed.json"\n'
# Looked at by itself, so that what is made does not depend on it.
LOOK = READ + 'hierarchy -check -top {top}\nproc\nwrite_json "{folder}/read.json"\n'
# An asynchronous reset becomes a synchronous one, and an enable a table before the flip-flop, as blocks have
# neither. That would also make flip-flops of latches, so that these are looked for before, in `made`.
SCRIPT = READ + """
synth -flatten -top {top} -noabc
write_json "{folder}/made.json"
chformal -remove
async2sync
dfflegalize -cell $_DFF_P_ 01 -cell $_DFF_N_ 01
abc -lut {inputs}
opt_clean -purge
write_blif "{folder}/made.blif"
"""
LATCH = re.compile(r"\$_(DLATCH|SR_)")
ASYNCHRONOUS = re.compile(r"\$_(DFF_[NP][NP][01]_|DFFE_[NP][NP][01][NP]_|DFFSR|ALDFF)")
CHECKS = ("$assert", "$assume", "$live", "$fair", "$cover", "$check", "$print")
WHERE = re.compile(r"(?P<file>.*?):(?P<line>\d+): (?P<kind>ERROR|Warning): (?P<said>.*)")


@dataclass
class Synthesis:
    """The BLIF, the module at the top, what is to be told, and for each net the line of the Verilog that has it."""

    text: str = ""
    top: str = ""
    told: list = field(default_factory=list)
    lines: dict = field(default_factory=dict)


def is_verilog(file):
    return file.endswith((".v", ".sv"))


def synthesise(file, inputs, top):
    """The BLIF of a Verilog file, in tables of at most so many inputs."""
    if not os.path.isfile(file):
        raise Refusal(file, None, "it can't be read: No such file or directory")
    if shutil.which("yosys") is None:
        raise Refusal(file, None, "yosys is due for Verilog, and isn't on the path")
    with tempfile.TemporaryDirectory() as folder:
        run = Run(file, folder)
        top = run.top_module(top)
        made = Synthesis(top=top)
        run.look(run.yosys(LOOK, top=f"\\{top}"))
        run.refuse_read(top, made.told)
        done = run.yosys(SCRIPT, top=f"\\{top}", inputs=inputs)
        made.told += run.warnings(done)
        run.refuse_made(made)
        run.look(done)
        made.text = read_text(f"{folder}/made.blif")
        return made


class Run:
    """A file and a folder in which yosys leaves what it makes of it."""

    def __init__(self, file, folder):
        self.file = file
        self.whole = os.path.abspath(file)
        self.folder = folder

    def refuse(self, line, why):
        raise Refusal(self.file, line, why)

    def yosys(self, script, **words):
        text = script.format(file=self.whole, folder=self.folder, **words)
        return subprocess.run(["yosys", "-q", "-p", text], capture_output=True, text=True)

    def modules(self, name):
        """The modules of a file that yosys left, or none where it did not come so far."""
        try:
            with open(f"{self.folder}/{name}.json", encoding="utf-8") as file:
                return json.load(file)["modules"]
        except (OSError, ValueError):
            return {}

    def line(self, thing):
        """The line of a module, a net or a cell, as yosys keeps it: FILE:LINE.COLUMN-LINE.COLUMN, one or more."""
        for place in thing.get("attributes", {}).get("src", "").split("|"):
            name, _, at = place.rpartition(":")
            number = re.match(r"\d+", at)
            if number and os.path.abspath(name) == self.whole:
                return int(number[0])
        return None

    def at(self, thing):
        """Its line in words, where that is known."""
        line = self.line(thing)
        return "" if line is None else f"line {line}: "

    def top_module(self, asked):
        """The module that is asked for, or the one that no other uses."""
        self.look(self.yosys(LIST))
        modules = self.modules("listed")
        if not modules:
            self.refuse(None, "there is no module in it; one is due")
        if asked is not None:
            if asked not in modules:
                self.refuse(None, f"it has no module {asked}, but {' '.join(modules)}")
            return asked
        used = {cell["type"] for module in modules.values() for cell in module["cells"].values()}
        free = [name for name in modules if name not in used]
        if len(free) > 1:
            where = ", ".join(f"{name} (line {self.line(modules[name])})" for name in free)
            self.refuse(None, f"no other module uses {where}; one such is due, or --top")
        return free[0] if free else next(iter(modules))

    def refuse_read(self, top, told):
        """Refuses what no design has; notes what is left out or changed."""
        modules = self.modules("read")
        if top in modules:
            self.refuse_ports(top, modules[top])
        for module in modules.values():
            self.refuse_tri_states(module)
            told += [f"{self.at(cell)}{cell['type'][1:]} is no part of a circuit, and left out"
                     for cell in module["cells"].values() if cell["type"] in CHECKS]
            told += self.memories(module)

    def refuse_ports(self, top, module):
        directions = {port: said["direction"] for port, said in module["ports"].items()}
        for port, direction in directions.items():
            if direction == "inout":
                self.refuse(self.line(module["netnames"].get(port, {})),
                            f"port {port} is an inout; inputs and outputs are due")
        if "output" not in directions.values():
            self.refuse(self.line(module), f"module {top} has no output; one is due")

    def refuse_tri_states(self, module):
        for net, said in module["netnames"].items():
            if "z" in said["bits"]:
                self.refuse(self.line(said), f"net {net} is a tri-state, as it may be z; 0 and 1 are due")
        for cell in module["cells"].values():
            if any("z" in bits for bits in cell["connections"].values()):
                self.refuse(self.line(cell), "a tri-state, as z stands in it; 0 and 1 are due")

    def memories(self, module):
        """What is told of memories that are written; the others become tables."""
        written = {cell["parameters"]["MEMID"].removeprefix("\\") for cell in module["cells"].values()
                   if cell["type"].startswith("$memwr")}
        return [f"{self.at(said)}the memory {memory} becomes {said['size']} words of {said['width']} flip-flops"
                for memory, said in module.get("memories", {}).items() if memory in written]

    def refuse_made(self, made):
        """Refuses latches, notes asynchronous resets, and keeps the lines of nets."""
        for module in self.modules("made").values():
            made.lines.update((net, self.line(said)) for net, said in module["netnames"].items())
            resets = {}
            for cell in module["cells"].values():
                if LATCH.match(cell["type"]):
                    self.refuse(self.line(cell), "a latch; flip-flops alone are due, at an edge of a clock")
                if ASYNCHRONOUS.match(cell["type"]):
                    resets[self.at(cell)] = None
            made.told += [f"{place}a set or reset that waits for no clock becomes one that does" for place in resets]

    def warnings(self, done):
        """What yosys warns of, each once."""
        told = {}
        said = (done.stdout + done.stderr).replace(self.whole, self.file)
        said = re.sub(r":\n +", ": ", said)  # a list behind a colon, line by line
        for line in re.sub(r"\n +", "; ", said).splitlines():
            found = WHERE.match(line)
            if found and found["kind"] == "Warning":
                told[f"line {found['line']}: yosys: {found['said']}"] = None
            elif line.startswith("Warning: "):
                told[f"yosys: {line.removeprefix('Warning: ')}"] = None
        return list(told)

    def look(self, done):
        """Refuses what yosys has refused, in its words."""
        if done.returncode == 0:
            return
        for said in (done.stdout + done.stderr).splitlines():
            found = WHERE.match(said)
            if found and found["kind"] == "ERROR":
                self.refuse(int(found["line"]), f"yosys: {found['said']}")
            if said.startswith("ERROR: "):
                self.refuse(None, f"yosys: {said.removeprefix('ERROR: ').replace(self.whole, self.file)}")
        self.refuse(None, "yosys: it failed")
