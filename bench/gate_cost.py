#!/usr/bin/env python3
"""Runs the gate and prints what it costs, by crate, in processor minutes.

    gate_cost.py [FOLDER]       `rt ci` in the folder (here, if none is named), whose output goes to FOLDER/../gate.log

Every half second the prover's processes are looked at in /proc: what a process has used when it was last seen counts for
its crate, as a proof, as one of the tests, or as one of the edits (whose checks run in a folder of their own). So each
process loses at most half a second. On a machine that does nothing else the sums are what a gate from nothing takes.
"""
import collections
import os
import subprocess
import sys
import time
from asked import answer_help

answer_help(__name__, __doc__)

HZ = os.sysconf("SC_CLK_TCK")


def prover_of(pid):
    """The crate that a process of the prover works on, as what, and the seconds that it has used; or None."""
    try:
        with open(f"/proc/{pid}/cmdline", "rb") as it:
            words = it.read().decode(errors="replace").split("\0")
        if not words[0].endswith("/rattle") or "--crate-name" not in words:
            return None
        with open(f"/proc/{pid}/stat") as it:
            fields = it.read().rpartition(")")[2].split()
        folder = os.readlink(f"/proc/{pid}/cwd")
    except OSError:
        return None
    crate = words[words.index("--crate-name") + 1]
    part = "edits" if "rt-edit-" in folder else "tests" if "--test" in words else "check"
    return folder, crate, part, sum(map(int, fields[11:15])) / HZ


def main():
    top = os.path.abspath(sys.argv[1] if len(sys.argv) > 1 else ".")
    seen, began = {}, time.time()
    with open(os.path.join(os.path.dirname(top), "gate.log"), "w") as log:
        gate = subprocess.Popen(["rt", "ci"], cwd=top, stdout=log, stderr=subprocess.STDOUT)
        while gate.poll() is None:
            for pid in filter(str.isdigit, os.listdir("/proc")):
                found = prover_of(pid)
                if found and (found[0].startswith(top) or found[2] == "edits"):
                    seen[pid, found[1], found[2]] = found[3]
            time.sleep(0.5)
    sums = collections.defaultdict(collections.Counter)
    for (_, crate, part), seconds in seen.items():
        sums[crate][part] += seconds / 60
    with open(os.path.join(top, "crates.txt")) as it:
        names = [line.partition(":")[0].split()[0] for line in it if ":" in line]
    print(f"{'crate':15}{'check':>5}{'tests':>7}{'edits':>7}")
    for name in names:
        row = [f"{sums[name][part]:.1f}" if sums[name][part] >= 0.05 else "" for part in ("check", "tests", "edits")]
        print(f"{name:15}{row[0]:>5}{row[1]:>7}{row[2]:>7}".rstrip())
    whole = collections.Counter()
    for row in sums.values():
        whole.update(row)
    print(f"{'all':15}{whole['check']:5.0f}{whole['tests']:7.0f}{whole['edits']:7.0f}")
    print(f"{sum(whole.values()):.0f} processor minutes, {(time.time() - began) / 60:.0f} by the clock; status {gate.returncode}")


main()
