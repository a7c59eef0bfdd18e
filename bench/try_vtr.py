#!/usr/bin/env python3
"""Tries tools/vtr on the samples of bench/vtr, on files that it must refuse, and back and forth on examples.

    try_vtr.py [ROUTER]

The samples are one small design as VTR 7, 8 and 9 write it, made by hand from what is documented: no VTR was run.
Each must read as the design of VPR 4.30, and the reverse. A file with a changed line must be refused with that line
and the words, and the files of bench/vtr/other, in XML, packed or in another coding, with their first line. Each
route and placement of examples must read the same behind a way there and back. With ROUTER, the built program, what
came back must also be routed and legal. Prints what is wrong, and last how many checks there were; ends with 1 where
one is wrong.
"""
import contextlib
import glob
import hashlib
import io
import os
import re
import subprocess
import sys
import tempfile
import types
from asked import answer_help

answer_help(__name__, __doc__)

from judge import Route, words_of

TOP = os.path.dirname(os.path.dirname(os.path.abspath(__file__)))
TOOL = os.path.join(TOP, "tools", "vtr")
SAMPLES = os.path.join(TOP, "bench", "vtr")
WIDTHS = {"design": 5, "fork": 3, "rotator": 5, "three": 3}
PADS = ["--pad-pins", "3"]

# A sample, a line of it, what is changed there, and what is said of that line.
REFUSED = (
    ("vtr7.route", 14, "to (2,1)", "to (4,1)", "a segment of length 1 is due"),
    ("vtr7.route", 7, "(0,1)", "(0,1) to (0,2)", "a block of length 1 is due"),
    ("vtr7.route", 7, "Pad: 4", "Pad: 3", "pin 0 of a pad's 3, and of SOURCE 1 is due"),
    ("vtr7.route", 41, "Pad: 3", "Pad: 5", "pin 2 of a pad's 3, and of IPIN 0 is due"),
    ("vtr7.route", 15, "clb.I[0]", "memory.d[0]",
     "a pin of memory, and in line 10 one of clb: one kind of block is due"),
    ("vtr7.route", 15, "clb.I[0]", "Virtual", "Virtual is not taken behind a node"),
    ("vtr7.route", 15, "clb.I[0]", "clb.I[0] Switch: a", "Switch: is not taken behind a node"),
    ("vtr7.route", 13, "CHANX", "CHANZ", "SOURCE, OPIN, CHANX, CHANY, IPIN or SINK is due, and not CHANZ"),
    ("vtr7.route", 13, "CHANX (1,1)  Track: 1", "", "SOURCE, OPIN, CHANX, CHANY, IPIN or SINK is due, and not no word"),
    ("vtr7.route", 13, "Track: 1", "", "a place, a label and a number are due"),
    ("vtr7.route", 13, "73", "x", "a number is due, and not x"),
    ("vtr7.route", 13, "Track: 1", "Track: one", "a number is due, and not one"),
    ("vtr7.route", 13, "Track", "Pin", "Track: is due, and not Pin:"),
    ("vtr7.route", 11, "Class", "Pin", "Class: or Pad: is due, and not Pin:"),
    ("vtr7.route", 13, "(1,1)", "(1;1)", "a place is due, and not (1;1)"),
    ("vtr7.route", 13, "(1,1)", "(3,1)", "(3,1) is not a CHANX cell in an array of 2 by 2"),
    ("vtr7.route", 12, "(0,1)", "(0,0)", "(0,0) is not a CHANY cell in an array of 2 by 2"),
    ("vtr7.route", 10, "(1,1)", "(3,1)", "(3,1) is not a logic block's place in an array of 2 by 2"),
    ("vtr7.route", 41, "(3,2)", "(2,2)", "(2,2) is not a pad's place in an array of 2 by 2"),
    ("vtr7.route", 41, "(3,2)", "(3,3)", "(3,3) is not a pad's place in an array of 2 by 2"),
    ("vtr7.route", 1, "2 x 2", "2 by 2", "`Array size: nx x ny logic blocks` is due"),
    ("vtr7.route", 1, "2 x 2", "0 x 2", "an array of one block or more is due, with pads round it"),
    ("vtr7.route", 3, "Routing:", "Routes:", "`Routing:` is due"),
    ("vtr7.route", 5, "(a)", "(a b)", "`Net k (name)` is due, and a name without blanks and `#`"),
    ("vtr7.route", 5, "(a)", "(a#b)", "`Net k (name)` is due, and a name without blanks and `#`"),
    ("vtr7.route", 5, "(a)", "(a):", "`Net k (name)` is due, and a name without blanks and `#`"),
    ("vtr7.route", 5, "0", "a", "a number is due, and not a"),
    ("vtr8.route", 2, "4 x 4", "4 x 2", "an array of one block or more is due, with pads round it"),
    ("vtr8.route", 1, "Placement_ID", "Placement", "the head of a route or a placement of VTR 7 to 9 is due"),
    ("vtr9.route", 13, "(0,1,0)", "(0,1,1)", "layer 1: an array of one layer is due, or another word on --layer-first"),
    ("vtr9.route", 13, "(0,1,0)", "(0,1,0,0)", "a place is due, and not (0,1,0,0)"),
    ("vtr9.place", 6, "1\t0\t#0", "1\t1\t#0", "layer 1: an array of one layer is due"),
    ("vtr8.place", 9, "1\t0\t#3", "1\t1\t#3",
     "subblock 1 of a logic block: a kind of block that has its place alone is due"),
    ("vtr8.place", 8, "3\t2\t1", "4\t2\t1", "(4,2) is no place of a block or a pad in an array of 2 by 2"),
    ("vtr8.place", 8, "3\t2\t1", "3\t3\t1", "(3,3) is no place of a block or a pad in an array of 2 by 2"),
    ("vtr8.place", 8, "out:z", "out#z", "a `#` in a word begins a comment"),
    ("vtr8.place", 8, "3\t2\t1", "3\t2", "a name, x, y and a subblock are due, and of VTR perhaps a layer"),
    ("vtr8.place", 8, "3\t2\t1", "3\t2\tone", "a number is due, and not one"),
    ("vtr8.place", 1, "Netlist_File:", "<?xml", "the head of a route or a placement of VTR 7 to 9 is due"),
    ("vtr8.place", 2, "4 x 4", "4 x 4 x 1", "`Array size: nx x ny logic blocks` is due"),
)
# The same of files of VPR 4.30, on their way to VTR 8.
REFUSED_BACK = (
    ("sample.route", 7, "SOURCE", "Node: 2 SOURCE", "SOURCE, OPIN, CHANX, CHANY, IPIN or SINK is due, and not Node:"),
    ("sample.route", 7, "(0,1)", "(0,1,0)", "a place is due, and not (0,1,0)"),
    ("sample.route", 7, "Pad: 1", "Pad: 1 Switch: 0", "Switch: is not taken behind a node"),
    ("sample.route", 9, "(0,1)", "(0,1) to (0,2)", "a segment of length 1 is due"),
    ("sample.place", 9, "1\t1\t0", "1\t1\t0\t0", "a name, x, y and a subblock are due, and of VTR perhaps a layer"),
    ("vtr8.place", 1, "Netlist_ID", "Netlist_ID", "the head of a route or a placement of VPR 4.30 is due"),
    ("vtr8.route", 1, "Placement_ID", "Placement_ID", "the head of a route or a placement of VPR 4.30 is due"),
)


class Checks:
    def __init__(self):
        self.count = self.wrong = 0

    def see(self, holds, what):
        self.count += 1
        if not holds:
            self.wrong += 1
            print(f"vtr: {what}")


def text_of(name):
    with open(name, newline="") as file:
        return file.read()


def loaded():
    """The tool as a module, so that hundreds of calls take no process each."""
    module = types.ModuleType("vtr")
    with open(TOOL) as file:
        exec(compile(file.read(), TOOL, "exec"), module.__dict__)
    return module


VTR = loaded()


def run(*words):
    """The status, what is printed and what is said by the tool, in this process."""
    printed, said, status = io.TextIOWrapper(io.BytesIO()), io.StringIO(), 0
    sys.argv = [TOOL, *words]
    try:
        with contextlib.redirect_stdout(printed), contextlib.redirect_stderr(said):
            VTR.main()
    except SystemExit as end:
        status = end.code
    return status, printed.buffer.getvalue().decode(), said.getvalue()


def turned(name, *words):
    """Leaves in the file `name` what a call that must go well prints."""
    status, printed, said = run(*words)
    if status != 0 or said:
        sys.exit(f"vtr: tools/vtr {' '.join(words)} ended with {status}: {said}")
    with open(name, "w", newline="") as file:
        file.write(printed)
    return printed


def to(version, file, out, *words):
    of = [] if version == 7 else ["--of", os.path.join(SAMPLES, "sample.net")]
    return turned(out, "to", str(version), file, *of, *words)


def reading(text):
    """What FORMATS.md says is read of a route or a placement: heads, and nets or blocks."""
    lines = [words for _, words in words_of(text)]
    if lines[0][0] == "Netlist":
        return lines[0][:2] + lines[0][3:5], lines[1][2:5:2], [words[:4] for words in lines[2:]]
    route = Route(text)
    nets = [(net.name, net.is_global, [(*e.at(), e.number) for e in net.elems]) for net in route.nets]
    blocks = [re.sub(r", (?=[0-9])", ",", line) for line in text.split("\n") if line.startswith("Block")]
    return route.size, lines[1], nets, blocks


def nodes(text):
    """The lines of a route of VTR without what is made by each writer, and the node numbers."""
    lines = [line for line in re.sub(r"# .*", "", text).split("\n") if line.strip()]
    bare = [re.sub(r"^Node:\t[0-9]+|to \S+|\w+\.\w\[\d\]|(?<=Switch:) ?[0-9]+|ID: .*", "", line) for line in lines]
    return [" ".join(line.split()) for line in bare], [line.split()[1] for line in lines if line.startswith("Node:")]


def changed(sample, number, old, new):
    lines = text_of(os.path.join(SAMPLES, sample)).split("\n")
    if old not in lines[number - 1]:
        sys.exit(f"vtr: line {number} of {sample} has no {old}")
    lines[number - 1] = lines[number - 1].replace(old, new, 1)
    return "\n".join(lines)


def try_samples(checks):
    for version in (7, 8, 9):
        for kind in ("place", "route"):
            sample, ours = (os.path.join(SAMPLES, f"{front}.{kind}") for front in (f"vtr{version}", "sample"))
            came = turned(f"came.{kind}", "from", sample, *PADS)
            checks.see(reading(came) == reading(text_of(ours)), f"vtr{version}.{kind} does not read as sample.{kind}")
            checks.see(came.count("\n") == text_of(sample).count("\n"), f"vtr{version}.{kind}: lines move")
            back = to(version, ours, "back", *PADS)
            same = (are_same if kind == "route" else are_same_placements)(back, text_of(sample))
            checks.see(same, f"sample.{kind} is not written as vtr{version}.{kind}")
    first = turned("first", "from", os.path.join(SAMPLES, "vtr9_layer_first.route"), *PADS, "--layer-first")
    checks.see(reading(first) == reading(text_of(os.path.join(SAMPLES, "sample.route"))), "layers that stand first")
    with open("bad", "w") as file:
        file.write(changed("vtr8.place", 1, "Netlist_ID: SHA256:", "Architecture_File: "))
    for name, head in ((os.path.join(SAMPLES, "vtr8.place"), "sample.arch"), ("bad", "ce5217d2")):
        came = run("from", name)[1]
        checks.see(came.startswith(f"Netlist file: sample.net   Architecture file: {head}"), f"a head: {came[:99]}")
    comment = "SINK (1,1)  Class: 0  # the first of two sinks\n"
    checks.see(comment in run("from", os.path.join(SAMPLES, "vtr8.route"), *PADS)[1], "a comment is lost")
    with open(os.path.join(SAMPLES, "sample.net"), "rb") as file:
        digest = hashlib.sha256(file.read()).hexdigest()
    for kind, of in (("place", "Netlist"), ("route", "Placement")):
        head = to(8, os.path.join(SAMPLES, f"sample.{kind}"), "back").split("\n")[0]
        wanted = f"{of}_File: sample.net {of}_ID: SHA256:{digest}"
        checks.see(head == wanted, f"the head of a {kind} of VTR 8: {head}")


def are_same_placements(back, sample):
    """Whether the lines behind the head are those of the sample, by words."""
    return [line.split() for line in back.split("\n")[1:]] == [line.split() for line in sample.split("\n")[1:]]


def are_same(back, sample):
    """Whether the lines are those of the sample, and the node numbers differ where those of the sample do."""
    (lines, numbers), (theirs, their_numbers) = nodes(back), nodes(sample.split("\nNet 4")[0])
    lines[0] = theirs[0] if lines[0].startswith("Placement_File:") else lines[0]
    pairs = set(zip(numbers, their_numbers))
    apart = len({a for a, _ in pairs}) == len({b for _, b in pairs}) == len(pairs)
    fold = [re.sub(r", (?=[0-9])", ",", line) for line in theirs]
    return lines == fold and apart


def try_refused(checks):
    for table, way in ((REFUSED, ["from"]), (REFUSED_BACK, ["to", "8"])):
        for sample, number, old, new, why in table:
            with open("bad", "w", newline="") as file:
                file.write(changed(sample, number, old, new))
            of = ["--of", os.path.join(SAMPLES, "sample.net")] if way[0] == "to" else []
            came = run(*way, "bad", *PADS, *of)
            wanted = (3, "", f"vtr: bad, line {number}: {why}\n")
            checks.see(came == wanted, f"{' '.join(way)} {sample}, line {number}, with {new}: {came}")
    for name in sorted(glob.glob(os.path.join(SAMPLES, "other", "*"))):
        came = run("from", name)
        wanted = (3, "", f"vtr: {name}, line 1: the head of a route or a placement of VTR 7 to 9 is due\n")
        checks.see(came == wanted, f"{name}: {came}")
    for text, line in (("", 1), ("# nothing\n", 2), ("Array size: 2 x 2 logic blocks.\n", 2)):
        with open("bad", "w") as file:
            file.write(text)
        status, printed, said = run("from", "bad")
        holds = (status, printed) == (3, "") and said.startswith(f"vtr: bad, line {line}: ")
        checks.see(holds, f"a short file: {said}")


def try_words(checks):
    place = os.path.join(SAMPLES, "sample.place")
    for words in (
        [], ["to"], ["from"], ["to", "6", place], ["to", "8", place], ["to", "7", place, "--of", place],
        ["from", place, "--of", place], ["from", place, "--pad-pins", "0"], ["from", place, "more"],
    ):
        status, printed, said = run(*words)
        holds = (status, printed) == (4, "") and "\nusage: tools/vtr from FILE" in said
        checks.see(holds, f"words {words}: {status}, {said}")
    came = subprocess.run([TOOL, "from", place], capture_output=True, text=True)
    same = (came.returncode, came.stdout, came.stderr) == (0, text_of(place), "")
    checks.see(same, f"a process of its own: {came}")
    came = run("from", "missing")
    wanted = (5, "", "vtr: missing: it can't be read: No such file or directory\n")
    checks.see(came == wanted, f"a missing file: {came}")
    if os.path.exists("/dev/full"):
        with open("/dev/full", "w") as full:
            came = subprocess.run([TOOL, "from", place], stdout=full, stderr=subprocess.PIPE)
        said = b"vtr: standard output: it can't be written: No space left on device\n"
        checks.see((came.returncode, came.stderr) == (6, said), f"a full device: {came}")


def there_and_back(name, out):
    """What differs of a file that went to a version of VTR and back; each way back is left in `out`."""
    wrong, text = [], text_of(name)
    for version, *options in ((7,), (8, *PADS), (9, *PADS, "--layer-first")):
        theirs = to(version, name, "theirs", *options)
        ours = turned(out, "from", "theirs", *options)
        again = turned(out, "from", "again", *options) if to(version, out, "again", *options) else ""
        is_one_form = version == 7 and name.endswith(".place")
        if theirs == text and not is_one_form or reading(ours) != reading(text) or again != ours:
            wrong.append(f"{os.path.basename(name)} to {version} {' '.join(options)} and back reads otherwise")
    return wrong


def try_examples(checks, router):
    examples = os.path.join(TOP, "examples")
    names = [name for end in ("place", "route") for name in sorted(glob.glob(os.path.join(examples, f"*.{end}")))]
    wanted = {f"{design}.{end}" for design in WIDTHS for end in ("place", "route")}
    checks.see(wanted <= set(map(os.path.basename, names)), "an example is missing")
    for name in names:
        wrong = there_and_back(name, os.path.basename(name))
        checks.see(not wrong, "; ".join(wrong))
    if router:
        for design, width in [*WIDTHS.items(), ("sample", 2)]:
            judge(checks, router, design, width)


def judge(checks, router, design, width):
    """Routes what came back, and judges the routing there and back against the files as they were."""
    if design == "sample":
        files = [os.path.join(SAMPLES, f"sample.{end}") for end in ("arch", "net", "place", "route")]
        turned("sample.place", "from", os.path.join(SAMPLES, "vtr8.place"))
        turned("sample.route", "from", os.path.join(SAMPLES, "vtr8.route"), *PADS)
        said = said_by(router, "verify", *files, str(width), "sample.route")
        checks.see(said == "legal\n", f"vtr8.route: {said}")
    else:
        files = [os.path.join(TOP, "examples", f"{design}.{end}") for end in ("arch", "net", "place", "route")]
    ours = [*files[:2], f"{design}.place", f"{design}.route"]
    said = said_by(router, "route", *ours, str(width), "routed")
    checks.see(said == f"routed {width}\n", f"{design}: {said}")
    to(9, "routed.route", "theirs", *PADS)
    turned("back.route", "from", "theirs", *PADS)
    said = said_by(router, "verify", *files, str(width), "back.route")
    checks.see(said == "legal\n", f"{design}, there and back: {said}")


def said_by(router, *words):
    return subprocess.run([router, *words], stdout=subprocess.PIPE, stderr=subprocess.DEVNULL, text=True).stdout


def main():
    router = os.path.abspath(sys.argv[1]) if len(sys.argv) > 1 else None
    checks = Checks()
    with tempfile.TemporaryDirectory() as folder:
        os.chdir(folder)
        try_samples(checks)
        try_refused(checks)
        try_words(checks)
        try_examples(checks, router)
        os.chdir("/")
    print(f"vtr: {checks.count} checks, {checks.wrong} wrong")
    sys.exit(checks.wrong > 0)


if __name__ == "__main__":
    main()
