#!/usr/bin/env python3
"""Measures watch chains: clauses that are attached, and propagation over a formula.

    measure_watches.py random [VARIABLES CLAUSES]     clauses of three literals; 200000 and 600000
    measure_watches.py rings [NETS]                   nets with four tracks, each of which meets the next
                                                      three; 50000, which make 649976 clauses
    measure_watches.py cnf NETS                       prints the clauses of such nets, for another solver

The program is that of the folder `watches` or `rings`, which is no crate of the repository: it is put
together with copies of the crates that it stands on in a folder of its own, proved there, and run three
times. Each run prints its times.
"""
import os
import re
import shutil
import subprocess
import sys
import tempfile
from asked import answer_help

answer_help(__name__, __doc__)

HERE = os.path.dirname(os.path.abspath(__file__))
TOP = os.path.dirname(HERE)
CRATES = {
    "list_laws": "",
    "sat_clause": "",
    "sat_arena": "sat_clause std_alloc core",
    "sat_watch": "list_laws sat_arena sat_clause",
    "watch_bench": "sat_watch sat_arena sat_clause",
}


def copy_crate(name, top):
    """A crate of the repository, without what was built and without its edits."""
    for part in ("src", "specs", "proofs"):
        source = os.path.join(TOP, "crates", name, part)
        if os.path.isdir(source):
            shutil.copytree(source, os.path.join(top, "crates", name, part))


def write_program(folder_name, changes, top):
    """The files of a folder, whose names end in `.in` there, with other numbers."""
    source = os.path.join(HERE, folder_name)
    for folder, _, names in os.walk(source):
        target = os.path.join(top, "crates", "watch_bench", os.path.relpath(folder, source))
        os.makedirs(target, exist_ok=True)
        for name in names:
            with open(os.path.join(folder, name), encoding="utf-8") as text:
                program = text.read()
            for name_and_type, number in changes.items():
                program = re.sub(rf"{name_and_type} = [0-9_]+;", f"{name_and_type} = {number};", program)
            with open(os.path.join(target, name.removesuffix(".in")), "w", encoding="utf-8") as out:
                out.write(program)


def measure(folder_name, changes):
    with tempfile.TemporaryDirectory() as top:
        subprocess.run(["git", "init", "-q", top], check=True)
        for name in list(CRATES)[:-1]:
            copy_crate(name, top)
        write_program(folder_name, changes, top)
        with open(os.path.join(top, "crates.txt"), "w") as out:
            out.writelines(f"{name}: {below}\n" for name, below in CRATES.items())
        crate = os.path.join(top, "crates", "watch_bench")
        subprocess.run(["rt", "check"], cwd=crate, stdout=subprocess.DEVNULL, check=True)
        subprocess.run(["rt", "run"], cwd=crate, check=True)
        for _ in range(2):
            subprocess.run([os.path.join(crate, "out", "watch_bench")], check=True)


def write_cnf(nets, out):
    """The clauses of `rings`, in its order."""
    lines = []
    for net in range(nets):
        for other in range(net + 1, min(nets, net + 4)):
            for track in range(4):
                lines.append(f"-{4 * net + track + 1} -{4 * other + track + 1} 0\n")
    for net in range(nets):
        lines.append(" ".join(str(4 * net + track + 1) for track in range(4)) + " 0\n")
    out.write(f"p cnf {4 * nets} {len(lines)}\n")
    out.writelines(lines)


def main(kind, *numbers):
    if kind == "random":
        variables, clauses = numbers or (200_000, 600_000)
        measure("watches", {"VARS: u32": variables, "CLAUSES: u32": clauses})
    elif kind == "rings":
        (nets,) = numbers or (50_000,)
        measure("rings", {"NETS: u32": nets})
    else:
        (nets,) = numbers
        write_cnf(nets, sys.stdout)


if __name__ == "__main__":
    main(sys.argv[1], *(int(word) for word in sys.argv[2:]))
