#!/usr/bin/env python3
"""Measures the built program on inputs that it makes in a folder of its own.

    measure.py [PROGRAM]

Without a word the program is the one of this checkout. Prints, for each run, its time, its rate and
its peak memory; beside the clauses the time that `cat` takes to copy them, and beside a search what it
has learned, the bytes of its log, and the time and the conflicts of `minisat` on the same clauses where
that is there.
"""
import os
import re
import shutil
import subprocess
import sys
import tempfile
import time
from asked import answer_help

answer_help(__name__, __doc__)

HERE = os.path.dirname(os.path.abspath(__file__))
BUILT = os.path.join(HERE, "..", "crates", "router", "out", "router")
MEGABYTE = 1_000_000


def script(name, *words, out=subprocess.DEVNULL):
    subprocess.run([sys.executable, os.path.join(HERE, name), *words], stdout=out, check=True)


def run(words, out=subprocess.DEVNULL, statuses=(0,)):
    """The seconds and the bytes that a run takes at most."""
    start = time.monotonic()
    child = subprocess.Popen(words, stdout=out)
    _, status, usage = os.wait4(child.pid, 0)
    seconds = time.monotonic() - start
    child.returncode = os.waitstatus_to_exitcode(status)
    if child.returncode not in statuses:
        sys.exit(f"{words} ended with status {child.returncode}")
    return seconds, usage.ru_maxrss * 1024


def shown(name, size, seconds, memory):
    print(f"{name}: {size / MEGABYTE:.0f} MB in {seconds:.2f} s, {size / MEGABYTE / seconds:.0f} MB/s, at most {memory / MEGABYTE:.0f} MB of memory")


def files(name):
    return [f"{name}.{ending}" for ending in ("arch", "net", "place", "route")]


def encode(program, size, width):
    script("make_design.py", "wide", str(size), "wilton", "0.9", "0.9", "1")
    seconds, memory = run([program, "encode", *files("wide"), str(width), "wide"])
    with open("wide.cnf", "rb") as text:
        clauses = int(text.readline().split()[3])
    shown(f"encode, {clauses} clauses", os.path.getsize("wide.cnf"), seconds, memory)
    with open("copy", "wb") as out:
        seconds, _ = run(["cat", "wide.cnf"], out=out)
    print(f"  cat copies them in {seconds:.2f} s")


def check(program, *kind):
    script("make_proof.py", *kind, "proof")
    size = os.path.getsize("proof.cnf") + os.path.getsize("proof.lrat")
    seconds, memory = run([program, "check", "proof.cnf", "proof.lrat"])
    shown(f"check, {' '.join(kind)}", size, seconds, memory)


def minisat(cnf):
    start = time.monotonic()
    said = subprocess.run(["minisat", cnf], capture_output=True, text=True).stdout
    seconds = time.monotonic() - start
    conflicts = re.search(r"conflicts\s*: (\d+)", said)
    answer = "unsatisfiable" if "UNSATISFIABLE" in said else "satisfiable"
    print(f"  minisat: {answer}, {conflicts.group(1) if conflicts else 0} conflicts in {seconds:.3f} s")


def route(program, width, maker, *kind):
    script(maker, "search", *kind)
    for name in ("found.route", "found.cnf", "found.lrat"):
        if os.path.exists(name):
            os.remove(name)
    seconds, _ = run([program, "route", *files("search"), str(width), "found"], statuses=(0, 1, 2))
    name = f"route, {maker} {' '.join(kind)} at width {width}"
    if os.path.exists("found.lrat"):
        with open("found.lrat", "rb") as log:
            learned = sum(1 for _ in log)
        print(f"{name}: {seconds:.3f} s, {learned} clauses learned, a log of {os.path.getsize('found.lrat')} bytes")
    else:
        print(f"{name}: routed in {seconds:.3f} s")
    run([program, "encode", *files("search"), str(width), "search"])
    if shutil.which("minisat"):
        minisat("search.cnf")


def main():
    program = os.path.abspath(sys.argv[1] if len(sys.argv) > 1 else BUILT)
    with tempfile.TemporaryDirectory() as folder:
        os.chdir(folder)
        encode(program, 50, 40)
        check(program, "tree", "300", "10")
        check(program, "chain", "40000", "50")
        for nets in (5, 7, 9, 11):
            route(program, nets - 1, "make_crowd.py", str(nets))
        for width in (7, 8, 9, 10, 12):
            route(program, width, "make_design.py", "10", "wilton", "0.9", "0.9", "7")
        for pattern in ("subset", "wilton", "universal"):
            for width in (8, 12, 16):
                route(program, width, "make_design.py", "30", pattern, "1", "0.9", "1")
        os.chdir("/")


main()
